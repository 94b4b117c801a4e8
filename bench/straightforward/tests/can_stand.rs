//! "A row of words can stand if some words after it make it the words of a text", by writing down every whole text of up to so many
//! words: a row can stand exactly if one of them starts with it.
//!
//! A letter stands for a word here: one access for all three, and one number for all.

use std::collections::HashSet;

use straightforward::{text, Refusal};

const WORDS: [(char, &str); 8] =
    [('R', "routine"), ('{', "{"), ('}', "}"), ('r', "r"), ('1', "1"), ('f', "f"), ('L', "loop"), ('E', "either")];

/// The whole texts have at most this many words; none of them nests too deep.
const LONGEST: usize = 20;

/// Every block without its braces that fits into a part, under how many words it has.
fn blocks() -> Vec<Vec<String>> {
    let (mut items, mut blocks) = (vec![vec![]], vec![vec![]]);
    for count in 1..=LONGEST - 3 {
        items.push(items_of(count, &blocks));
        let mut all = items[count].clone();
        for first in 1..count {
            all.extend(pairs(&items[first], &blocks[count - first]).map(|(item, rest)| format!("{item}{rest}")));
        }
        blocks.push(all);
    }
    blocks
}

/// Every item of so many words; the blocks in it have fewer.
fn items_of(count: usize, blocks: &[Vec<String>]) -> Vec<String> {
    match count {
        1 => return vec!["f".to_string()],
        2 => return vec!["r1".to_string()],
        _ => {}
    }
    let mut items: Vec<String> = blocks[count - 3].iter().map(|body| format!("L{{{body}}}")).collect();
    for one in 1..count.saturating_sub(5) {
        let both = pairs(&blocks[one], &blocks[count - 5 - one]);
        items.extend(both.map(|(one, other)| format!("E{{{one}}}{{{other}}}")));
    }
    items
}

fn pairs<'a>(ones: &'a [String], others: &'a [String]) -> impl Iterator<Item = (&'a String, &'a String)> {
    ones.iter().flat_map(move |one| others.iter().map(move |other| (one, other)))
}

/// Every whole text, of no part, one, or several.
fn whole_texts() -> Vec<String> {
    let blocks = blocks();
    let mut texts = vec![String::new()];
    let mut at = 0;
    while at < texts.len() {
        let room = LONGEST.saturating_sub(texts[at].len() + 3);
        let fitting = blocks[..=room].iter().flatten();
        let longer: Vec<String> = fitting.map(|block| format!("{}R{{{block}}}", texts[at])).collect();
        texts.extend(longer);
        at += 1;
    }
    texts
}

/// How many words a whole text that starts with this row needs at most, if there is one: `routine` and `loop` ask for `{ f }`,
/// `either` for `{ f } { f }`, an access for its number.
fn enough(row: &str) -> usize {
    let asked = |letter| match letter {
        'R' | 'L' => 3,
        'E' => 6,
        'r' => 1,
        _ => 0,
    };
    row.len() + row.chars().map(asked).sum::<usize>()
}

fn spelled(row: &str) -> String {
    let word = |letter| WORDS.iter().find(|word| word.0 == letter).expect("a letter of WORDS").1;
    row.chars().map(word).collect::<Vec<_>>().join(" ")
}

/// What the service has to say of a row whose words but the last can stand.
fn expected(row: &str, can_stand: bool, is_whole: bool) -> Result<usize, Refusal> {
    let text = spelled(row);
    let last = text.len() - text.rsplit(' ').next().unwrap_or("").len();
    match (is_whole, can_stand) {
        (true, _) => Ok(7 + 6 * row.chars().map(|letter| "rfLEE".matches(letter).count()).sum::<usize>()),
        (false, true) => Err(Refusal { number: 17, place: text.len() as u64 }),
        (false, false) => Err(Refusal { number: 17, place: last as u64 }),
    }
}

#[test]
fn every_short_row_of_words() {
    let texts = whole_texts();
    let whole: HashSet<&str> = texts.iter().map(String::as_str).collect();
    let starts = |text| (0..).map_while(move |end| str::get(text, ..end)).take_while(|row| enough(row) <= LONGEST);
    let standing: HashSet<&str> = texts.iter().flat_map(|text| starts(text)).collect();
    let mut met = [0; 3];
    for row in &standing {
        for row in WORDS.map(|(letter, _)| format!("{row}{letter}")) {
            if enough(&row) > LONGEST {
                continue;
            }
            let (is_whole, can_stand) = (whole.contains(row.as_str()), standing.contains(row.as_str()));
            let typed = spelled(&row);
            assert_eq!(text(typed.as_bytes(), &mut [0; 775]), expected(&row, can_stand, is_whole), "{typed}");
            met[is_whole as usize + can_stand as usize] += 1;
        }
    }
    assert!(met.iter().all(|&count| count > 1000), "too few that can't stand, break off and are whole to mean anything: {met:?}");
}
