//! Typed texts by hand, and what the lent buffer has to do with them.

use inputs::{length, typed, Typed, NODES};
use straightforward::{read, text, Refusal};

#[test]
fn every_text_by_hand() {
    for Typed { text: typed, answer } in typed() {
        let mut out = vec![7; length(NODES) + 3];
        let given = text(&typed, &mut out);
        let words = String::from_utf8_lossy(&typed);
        match answer {
            Ok(listing) => {
                assert_eq!(given, Ok(listing.len()), "{words}");
                assert_eq!(out[..listing.len()], listing, "{words}");
                assert!(out[listing.len()..].iter().all(|&byte| byte == 7), "{words}");
                assert!(read(&listing).is_ok(), "{words}");
            }
            Err((number, place)) => {
                assert_eq!(given, Err(Refusal { number, place }), "{words}");
                assert!(out.iter().all(|&byte| byte == 7), "{words}");
            }
        }
    }
}

#[test]
fn too_little_room_comes_last() {
    let refused = |number, place| Err(Refusal { number, place });
    assert_eq!(text(b"routine { f }", &mut [0; 12]), refused(16, 0));
    assert_eq!(text(b"routine { f }", &mut [0; 13]), Ok(13));
    assert_eq!(text(b"routine { f f }", &mut []), refused(16, 0));
    assert_eq!(text(b"", &mut []), refused(5, 0));
    assert_eq!(text(&b"routine { f } ".repeat(17), &mut []), refused(5, 0));
    assert_eq!(text(format!("routine {{ {}}}", "f ".repeat(129)).as_bytes(), &mut []), refused(6, 0));
    assert_eq!(text(b"routine { f", &mut []), refused(17, 11));
}
