//! Texts by hand.

use crate::sketch::sketch;

/// A text, and its listing or the number and place of its refusal.
pub struct Typed {
    pub text: Vec<u8>,
    pub answer: Result<Vec<u8>, (u64, u64)>,
}

const DEEPEST: &str = "routine { loop { loop { loop { loop { loop { loop { loop { loop { f } } } } } } } } }";

/// Good texts, and their listings as sketches.
const GOOD: &[(&[u8], &str)] = &[
    (b"routine { w 1 w 2 } routine { r 2 r 1 }", "w1 w2; r2 r1"),
    (b"routine { w 1 u 3 r 2 } routine { f }", "w1 u3 r2; f"),
    (b"\r\n routine\n{\rf\n\n}  \r", "f"),
    (b"routine { r 0 w 00000 r 00001 u 065 r 32767 w 32768 u 65535 }", "r0 w0 r1 u65 r32767 w32768 u65535"),
    // a loop with something after it, and without
    (b"routine { loop { w 1 r 2 } f }", "p>1,3 w1>2 r2>0 f"),
    (b"routine { loop { w 1 r 2 } }", "p>1 w1>2 r2>0"),
    (b"routine { loop { f } loop { f } }", "p>1,2 f>0 p>3 f>2"),
    // a loop that ends a loop leads back first
    (b"routine { loop { loop { r 1 } } w 2 }", "p>1,3 p>0,2 r1>1 w2"),
    (b"routine { loop { r 1 loop { r 2 } } }", "p>1 r1>2 p>0,3 r2>2"),
    (b"routine { either { w 1 } { r 2 } u 3 }", "p>1,2 w1>3 r2>3 p>4 u3"),
    (b"routine { either { w 1 w 2 } { r 2 r 1 } }", "p>1,3 w1>2 w2>5 r2>4 r1>5 p"),
    (b"routine { either { loop { w 1 } } { f } }", "p>1,3 p>2,4 w1>1 f>4 p"),
    (b"routine { loop { either { r 1 } { w 2 } } f }", "p>1,5 p>2,3 r1>4 w2>4 p>0 f"),
    (b"routine { either { f } { either { r 1 } { r 2 } } } routine { f }", "p>1,2 f>6 p>3,4 r1>5 r2>5 p>6 p; f"),
    (DEEPEST.as_bytes(), "p>1 p>0,2 p>1,3 p>2,4 p>3,5 p>4,6 p>5,7 p>6,8 f>7"),
];

/// Bad texts, and where.
const BAD: &[(&[u8], u64)] = &[
    // it breaks off
    (b"routine", 7),
    (b"routine ", 8),
    (b"routine {\n", 10),
    (b"routine { f", 11),
    (b"routine { r", 11),
    (b"routine { r 1 ", 14),
    (b"routine { loop", 14),
    (b"routine { loop { f }", 20),
    (b"routine { either { f } ", 23),
    (b"routine { either { f } { f }", 28),
    (b"routine { f } routine", 21),
    // a word can't stand there
    (b"f", 0),
    (b" }", 1),
    (b"{ f }", 0),
    (b"1", 0),
    (b"routine f", 8),
    (b"routine routine", 8),
    (b"routine { f } }", 14),
    (b"routine { f } f", 14),
    (b"routine { { f } }", 10),
    (b"routine { 1 }", 10),
    (b"routine { routine { f } }", 10),
    (b"routine { r 1 2 }", 14),
    (b"routine { f 1 }", 12),
    (b"routine { r }", 12),
    (b"routine { r w 1 }", 12),
    (b"routine { loop f }", 15),
    (b"routine { loop { f } { f } }", 21),
    (b"routine { either { f } }", 23),
    (b"routine { either { f } f }", 23),
    (b"routine { either { f } either { f } }", 23),
    (b"routine { either { f } { f } { f } }", 29),
    // "No block is empty"
    (b"routine { }", 10),
    (b"routine { loop { } }", 17),
    (b"routine { either { } { f } }", 19),
    (b"routine { either { f } { } }", 25),
    // "1 to 5 digits, at most 65535"
    (b"routine { r 65536 }", 12),
    (b"routine { w 99999 }", 12),
    (b"routine { u 000001 }", 12),
    (b"routine { u 18446744073709551617 }", 12),
    (b"routine { r -1 }", 12),
    (b"routine { r +1 }", 12),
    (b"routine { r 1x }", 12),
    (b"routine { r 0x1 }", 12),
    (b"routine { r 1: }", 12),
    (b"routine { r / }", 12),
    // words run together, or written otherwise
    (b"routine{ f }", 0),
    (b"routine { r1 }", 10),
    (b"routine { f}", 10),
    (b"routine { f };", 12),
    (b"Routine { f }", 0),
    (b"routin { f }", 0),
    (b"routines { f }", 0),
    (b"routine { F }", 10),
    (b"routine { loops { f } }", 10),
    // TAB, NUL and bytes over 127 are no blanks
    (b"\t", 0),
    (b"routine\t{ f }", 0),
    (b"routine { f\t}", 10),
    (b"routine { f }\0", 12),
    (b"routine { f } \0", 14),
    (b"routine { r \xA0 }", 12),
    (b"routine { r 1\xFF }", 12),
    (b"\xEF\xBB\xBFroutine { f }", 0),
    (b"routine \x0B { f }", 8),
    (b"routine \x85 { f }", 8),
];

/// Every text by hand, those at the limits too.
pub fn typed() -> Vec<Typed> {
    let good = GOOD.iter().map(|&(text, listing)| Typed { text: text.to_vec(), answer: Ok(sketch(listing)) });
    let bad = BAD.iter().map(|&(text, place)| refused(text, 17, place));
    good.chain(bad).chain(too_deep()).chain(few_and_many_parts()).chain(many_nodes()).collect()
}

fn refused(text: &[u8], number: u64, place: u64) -> Typed {
    Typed { text: text.to_vec(), answer: Err((number, place)) }
}

/// The ninth of each kind, in either block.
fn too_deep() -> Vec<Typed> {
    let mut texts = Vec::new();
    for level in ["loop {", "either {", "either { f } {"] {
        for ninth in ["loop", "either"] {
            let eight = format!("routine {{ {} ", [level; 8].join(" "));
            texts.push(refused(format!("{eight}{ninth}").as_bytes(), 17, eight.len() as u64));
            texts.push(refused(format!("{eight}f {ninth} {{ f }}").as_bytes(), 17, eight.len() as u64 + 2));
        }
    }
    texts
}

fn few_and_many_parts() -> Vec<Typed> {
    let part = "routine { f } ";
    let sixteen = Typed { text: part.repeat(16).into_bytes(), answer: Ok(sketch(&["f"; 16].join(";"))) };
    let many = part.repeat(17);
    vec![
        refused(b"", 5, 0),
        refused(b" \r\n ", 5, 0),
        sixteen,
        refused(many.as_bytes(), 5, 0),
        refused(part.repeat(300).as_bytes(), 5, 0),
        // bad text comes before too many parts, and those before too many nodes
        refused(format!("{many}f").as_bytes(), 17, many.len() as u64),
        refused(&many.as_bytes()[..many.len() - 2], 17, many.len() as u64 - 2),
        refused(format!("{many}routine {{ {}}}", "f ".repeat(129)).as_bytes(), 5, 0),
    ]
}

fn many_nodes() -> Vec<Typed> {
    let fences = |count: usize| "f ".repeat(count);
    let bad = format!("routine {{ {}", fences(129));
    vec![
        Typed { text: format!("routine {{ {}}}", fences(128)).into_bytes(), answer: Ok(sketch(&fences(128))) },
        refused(format!("{bad}}}").as_bytes(), 6, 0),
        refused(format!("routine {{ {}}}", fences(256)).as_bytes(), 6, 0),
        refused(format!("routine {{ {}}}", fences(257)).as_bytes(), 6, 0),
        refused(format!("routine {{ {}}} routine {{ {}}}", fences(64), fences(65)).as_bytes(), 6, 0),
        // an either has two plain nodes, and a loop one
        refused(format!("routine {{ {}either {{ f }} {{ f }} }}", fences(125)).as_bytes(), 6, 0),
        refused(format!("routine {{ {}loop {{ f }} }}", fences(127)).as_bytes(), 6, 0),
        refused(format!("{bad}{{").as_bytes(), 17, bad.len() as u64),
        refused(bad.as_bytes(), 17, bad.len() as u64),
    ]
}
