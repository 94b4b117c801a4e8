//! What would change if a rule were another one that may be mistaken for it.

use inputs::{Call, Random, QUESTIONS};
use straightforward::{failing_by, AsTheyAre, Pair, Rules};

use crate::marked::Row;
use crate::tally::{chain, CHAINS};
use crate::{ask_both, Marked, Service};

/// What a mistake changes: a ROBUST listing would be OPEN, an OPEN one ROBUST; an OPEN one would show another pair, or the same and
/// another chain, or have another map proposed; a patch would be accepted that is not, or not accepted that is.
const CHANGES: [&str; 6] = ["ROBUST", "OPEN", "pair", "chain", "map", "patch"];

/// What random listings came to.
pub struct Counted {
    /// the shown chains by their pairs, each of which must be met
    pub chains: Marked,
    /// what each mistake would change
    pub changes: Marked,
}

/// Makes random listings, each with a map of a place or more, and has them judged, judged with the map and proposed for by both sides
/// under every question: they must be alike. Counts what each mistake would change, its name with marks by CHANGES.
pub fn count_changes(
    (listings, seed): (u64, u64),
    made: impl Fn(&mut Random) -> Vec<u8>,
    mistakes: &[(Row, impl Rules)],
) -> Counted {
    let mut random = Random::seeded(seed);
    let mut chains = Marked::new(vec![("a chain, judged", "+++"), ("a chain, judged with a map", "+++")], &CHAINS);
    let mut changes = Marked::new(mistakes.iter().map(|(row, _)| *row).collect(), &CHANGES);
    for number in 0..listings {
        let listing = made(&mut random);
        let mut map: Vec<u8> = (0..inputs::nodes(&listing)).map(|_| random.once_in(4) as u8).collect();
        let place = random.below(map.len());
        map[place] = 1;
        for question in 1..=QUESTIONS as u64 {
            let call = Call::of_listing(question, listing.clone(), map.clone());
            for service in [Service::Judge, Service::JudgePatch, Service::Propose] {
                if let Err(difference) = ask_both(service, &call, &mut random) {
                    panic!("listing {number} of seed {seed}: {difference}");
                }
            }
            let right = Failing::by(&AsTheyAre, &call);
            for (row, failing) in [&right.judged, &right.patched].into_iter().enumerate() {
                if let Some(shown) = failing.first() {
                    chains.count(row, chain(shown.len()));
                }
            }
            for (row, (_, rules)) in mistakes.iter().enumerate() {
                let changed = right.changed(&Failing::by(rules, &call));
                (0..CHANGES.len()).filter(|&column| changed[column]).for_each(|column| changes.count(row, column));
            }
        }
    }
    Counted { chains, changes }
}

/// What fails, as `straightforward::failing_by` has it.
struct Failing {
    judged: Vec<Vec<Pair>>,
    patched: Vec<Vec<Pair>>,
}

impl Failing {
    fn by(rules: &impl Rules, call: &Call) -> Failing {
        let failing = |map: &[u8]| failing_by(rules, call.question, &call.listing, map).expect("listing and map are good");
        Failing { judged: failing(&vec![0; call.map.len()]), patched: failing(&call.map) }
    }

    fn proposed(&self) -> impl Iterator<Item = usize> + '_ {
        self.judged.iter().map(|chain| chain[0].0)
    }

    /// By CHANGES.
    fn changed(&self, wrong: &Failing) -> [bool; CHANGES.len()] {
        let patch = self.patched.is_empty() != wrong.patched.is_empty();
        match (self.judged.first(), wrong.judged.first()) {
            (None, None) => [false, false, false, false, false, patch],
            (None, Some(_)) => [true, false, false, false, false, patch],
            (Some(_), None) => [false, true, false, false, false, patch],
            (Some(shown), Some(other)) => {
                let pair = shown[0] != other[0];
                [false, false, pair, !pair && shown != other, !self.proposed().eq(wrong.proposed()), patch]
            }
        }
    }
}
