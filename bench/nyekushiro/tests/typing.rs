//! The refusals of docs/TYPING.md, each by a call of the library; examples/test runs the rest of the page.

use nyekushiro::raw;

const PAGE: &str = include_str!("../../../docs/TYPING.md");

/// `(f )x3` is what the brackets hold, three times; `\t` is a TAB, `\n` the end of a line.
fn text(shown: &str) -> String {
    let Some((before, rest)) = shown.split_once('(') else {
        return shown.replace("\\t", "\t").replace("\\n", "\n");
    };
    let (repeated, rest) = rest.split_once(")x").unwrap_or_else(|| panic!("{shown:?} has a bracket without its number"));
    let end = rest.find(|c: char| !c.is_ascii_digit()).unwrap_or(rest.len());
    let (times, after) = rest.split_at(end);
    [text(before), text(repeated).repeat(times.parse().unwrap()), text(after)].concat()
}

#[test]
fn every_row_is_refused_so() {
    let heading = "| No. | Text | Place | Because |";
    assert_eq!(PAGE.lines().filter(|&line| line == heading).count(), 1);
    let mut numbers = Vec::new();
    for row in PAGE.lines().skip_while(|&line| line != heading).skip(2).take_while(|line| line.starts_with('|')) {
        let columns: Vec<&str> = row.split('|').map(str::trim).collect();
        let ["", number, shown, place, because, ""] = columns[..] else { panic!("{row:?} has other columns") };
        let number: u64 = number.parse().unwrap();
        let text = text(shown.trim_matches('`'));
        // a row says how many bytes are lent if they are too few
        let (lent, needed) = because.split_once(" bytes are lent for a listing of ").unwrap_or(("775", ""));
        let mut out = vec![7; lent.parse().unwrap()];
        let answer = raw::text(text.as_bytes(), &mut out);
        assert_eq!((answer.kind, answer.first, answer.second, answer.count), (2, number, place.parse().unwrap(), 0), "{row:?}");
        assert!(out.iter().all(|&byte| byte == 7), "{row:?}: the lent buffer was written to");
        if number == 16 {
            let needed: usize = needed.parse().unwrap();
            assert_eq!(raw::text(text.as_bytes(), &mut vec![7; needed]).count, needed as u64, "{row:?}");
        }
        numbers.push(number);
    }
    numbers.dedup();
    assert_eq!(numbers, [17, 5, 6, 16]);
}
