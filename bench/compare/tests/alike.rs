//! Random calls to all six services: the proved answer and every lent byte are those of the straightforward one.
//!
//! NYEKUSHIRO_INPUTS says how many calls, NYEKUSHIRO_SEED where the numbers by chance start.

use compare::{ask_both, setting, Service, Tally};
use inputs::{Call, Random};

const INPUTS: u64 = 50_000;
const SEED: u64 = 2026;

fn main() {
    let (inputs, seed) = (setting("NYEKUSHIRO_INPUTS", INPUTS), setting("NYEKUSHIRO_SEED", SEED));
    let mut random = Random::seeded(seed);
    let mut tally = Tally::default();
    for number in 0..inputs {
        let call = Call::random(&mut random);
        for service in Service::ALL {
            match ask_both(service, &call, &mut random) {
                Ok(answer) => tally.count(service, answer, &call),
                Err(difference) => panic!("call {number} of seed {seed}: {difference}"),
            }
        }
    }
    println!("{inputs} random inputs, {} services each: all alike\n{tally}", Service::ALL.len());
    let missing = tally.never_met();
    if !missing.is_empty() {
        panic!("never met, so ask for more with NYEKUSHIRO_INPUTS or mend the inputs: {}", missing.join("; "));
    }
}
