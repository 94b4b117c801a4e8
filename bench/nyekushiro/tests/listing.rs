//! The examples of docs/LISTING.md: its bytes and its typed text are the fader's, and each row of its table is refused as it says.

use nyekushiro::{raw, text, Place, Reason, Refusal};

const PAGE: &str = include_str!("../../../docs/LISTING.md");
const FADER: &[u8] = include_bytes!("../../../examples/fader.ord");

/// What stands between the one line `from` and the next line that starts with `to`.
fn between(from: &str, to: &str) -> Vec<&'static str> {
    assert_eq!(PAGE.lines().filter(|&line| line == from).count(), 1, "the page has the line {from:?} once");
    PAGE.lines().skip_while(|&line| line != from).skip(1).take_while(|line| !line.starts_with(to)).collect()
}

/// Bytes in words of two digits; `(00 FF)x3` is what the brackets hold, three times, and `+` in a node's record is the next node's number.
fn bytes(text: &str) -> Vec<u8> {
    let mut bytes = Vec::new();
    for word in words(text) {
        bytes.push(if word == "+" { next_node(bytes.len()) } else { byte(word) });
    }
    bytes
}

/// The words, with what brackets hold as often as they say.
fn words(text: &str) -> Vec<&str> {
    let Some((before, rest)) = text.split_once('(') else {
        return text.split_whitespace().collect();
    };
    let (repeated, rest) = rest.split_once(")x").unwrap_or_else(|| panic!("{text:?} has a bracket without its number"));
    let (times, after) = rest.split_once(' ').unwrap_or((rest, ""));
    [words(before), words(repeated).repeat(times.parse().unwrap()), words(after)].concat()
}

/// The number of the node after the one whose record has this byte of a listing.
fn next_node(at: usize) -> u8 {
    let (heading, record) = (7, 6);
    let in_records = at.checked_sub(heading).expect("+ stands in a node's record");
    (in_records / record + 1) as u8
}

fn byte(digits: &str) -> u8 {
    assert!(digits.len() == 2 && digits.bytes().all(|digit| digit.is_ascii_hexdigit()), "{digits:?} is no byte");
    u8::from_str_radix(digits, 16).unwrap()
}

/// `SERVICE [QUESTION]: LISTING[; map MAP][; room LENGTH]`, or `text: TEXT`.
struct Call<'a> {
    service: &'a str,
    question: Option<u64>,
    input: Vec<u8>,
    map: Option<Vec<u8>>,
    room: Option<usize>,
}

impl Call<'_> {
    fn of(text: &str) -> Call<'_> {
        let (service, inputs) = text.split_once(": ").unwrap_or_else(|| panic!("{text:?} names no service"));
        let (service, question) = service.split_once(' ').map_or((service, None), |(name, number)| (name, Some(number)));
        let mut inputs = inputs.split("; ").peekable();
        let first = inputs.next().unwrap();
        let call = Call {
            service,
            question: question.map(|number| number.parse().unwrap()),
            input: if service == "text" { first.into() } else { bytes(first) },
            map: inputs.next_if(|input| input.starts_with("map")).map(|input| bytes(&input["map".len()..])),
            room: inputs.next_if(|input| input.starts_with("room ")).map(|input| input["room ".len()..].parse().unwrap()),
        };
        assert_eq!(inputs.next(), None, "{text:?} has an input more");
        call
    }

    fn answer(&self, lent: &mut [u8]) -> raw::Answer {
        match (self.service, self.question, &self.map, self.room) {
            ("read", None, None, None) => raw::read(&self.input),
            ("judge", Some(question), None, _) => raw::judge(question, &self.input, lent),
            ("judge_patch", Some(question), Some(map), _) => raw::judge_patch(question, &self.input, map, lent),
            ("propose", Some(question), None, _) => raw::propose(question, &self.input, lent),
            ("write", None, Some(map), _) => raw::write(&self.input, map, lent),
            ("text", None, None, None) => raw::text(&self.input, lent),
            (service, ..) => panic!("{service:?} is no service, or has other inputs"),
        }
    }

    /// The refusal, which must leave the lent buffer as it was.
    fn refusal(&self) -> Refusal {
        // where no room is named, as much as any service asks for
        let mut lent = vec![7; self.room.unwrap_or(raw::LISTING_BUFFER)];
        let answer = self.answer(&mut lent);
        let refusal = answer.refusal().unwrap_or_else(|| panic!("not refused: {answer:?}"));
        assert!(lent.iter().all(|&byte| byte == 7), "the lent buffer was written to");
        refusal
    }
}

fn in_backticks(text: &str) -> &str {
    text.strip_prefix('`').and_then(|text| text.strip_suffix('`')).unwrap_or_else(|| panic!("{text:?} is not in backticks"))
}

#[test]
fn fader_byte_by_byte() {
    let lines = between("```listing", "```");
    assert_eq!(lines.iter().flat_map(|line| bytes(line.split('#').next().unwrap())).collect::<Vec<_>>(), FADER);
}

#[test]
fn fader_typed() {
    assert_eq!(text(between("```text", "```").join("\n").as_bytes()), Ok(FADER.to_vec()));
}

#[test]
fn every_row_is_refused_so() {
    let section = between("## Refusals", "## ");
    let mut rows = section.iter().filter(|line| line.starts_with('|'));
    assert_eq!(rows.next(), Some(&"| No. | Refused because | Place | Example | At |"));
    assert_eq!(rows.next(), Some(&"|---|---|---|---|---|"));
    let mut numbers = Vec::new();
    for row in rows {
        let columns: Vec<&str> = row.split('|').map(str::trim).collect();
        let ["", number, words, place, call, at, ""] = columns[..] else { panic!("{row:?} has other columns") };
        let at = at.parse().unwrap();
        let place = match place {
            "0" if at == 0 => None,
            "node" | "the lowest such node" => Some(Place::Node(at)),
            "index of the first such" => Some(Place::Index(at)),
            "byte" => Some(Place::Byte(at)),
            _ => panic!("{row:?} has a place that is none"),
        };
        let reason = Reason::from(number.parse::<u64>().unwrap());
        assert_eq!(Call::of(in_backticks(call)).refusal(), Refusal { reason, place }, "{row:?}");
        assert_eq!(words, reason.to_string(), "{row:?}");
        numbers.push(reason.number());
    }
    // "Checks run in this order": 18 comes after 12, before 13
    let in_order: Vec<u64> = (1..=12).chain([18]).chain(13..=17).collect();
    assert_eq!(numbers, in_order);
    numbers.sort_unstable();
    assert_eq!(numbers, Reason::ALL.map(Reason::number));
}

#[test]
fn examples_are_written_so() {
    assert_eq!(bytes("01 (00)x3 FF"), [1, 0, 0, 0, 255]);
    let line = bytes("4F 52 44 01 00 01 03 (00 00 00 00 + FF)x2 00 00 00 00 FF FF");
    assert_eq!(line, b"ORD\x01\x00\x01\x03\x00\x00\x00\x00\x01\xff\x00\x00\x00\x00\x02\xff\x00\x00\x00\x00\xff\xff");
}
