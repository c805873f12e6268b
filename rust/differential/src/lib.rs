//! Holds the proved core against the hand-written kit. [`compare`] makes random calls of the C interface and of the hand-written kit:
//! the answers have to be equal, and so has every word and byte that was lent, with the guards around it. [`Kit`] is either of the two
//! as a type, for what is run with both.

pub mod cases;
mod code;
mod damage;
#[cfg(test)]
mod fixpoint;
mod image_calls;
pub mod images;
mod kit;
mod listing_calls;
mod machine_calls;
mod map;
mod meter_calls;
mod pair_calls;
mod random;
mod reach_calls;
mod reference;
pub mod rows;
mod scene;
#[cfg(test)]
mod stepping;
mod tally;
mod twin;

pub use kit::{Handwritten, Kit, Proved};
pub use tally::Tally;

use random::Random;
use scene::Scene;

/// How many calls are made before a new memory.
const CALLS_PER_SCENE: u64 = 40;

type Call = fn(&mut Random, &mut Scene, &mut Tally);

/// The calls, each as many times as it weighs.
const CALLS: [(Call, u64); 13] = [
    (machine_calls::reset, 1),
    (machine_calls::step, 40),
    (machine_calls::run, 12),
    (meter_calls::wait, 10),
    (meter_calls::region, 4),
    (listing_calls::list, 16),
    (listing_calls::assemble, 18),
    (image_calls::load, 10),
    (image_calls::write, 5),
    (pair_calls::load, 10),
    (pair_calls::write, 5),
    (reach_calls::reach, 5),
    (reach_calls::region, 5),
];

/// Makes so many random calls of both kits.
///
/// # Panics
///
/// At the first call on which they differ.
pub fn compare(seed: u64, calls: u64) -> Tally {
    let mut random = Random::new(seed);
    let mut tally = Tally::default();
    let mut made = 0;
    while made < calls {
        let mut scene = Scene::new(&mut random);
        tally.count_memory(scene.memory.len());
        for _ in 0..CALLS_PER_SCENE.min(calls - made) {
            any_call(&mut random)(&mut random, &mut scene, &mut tally);
            made += 1;
        }
    }
    tally
}

fn any_call(random: &mut Random) -> Call {
    let total = CALLS.iter().map(|(_, weight)| weight).sum();
    let mut left = random.below(total);
    for (call, weight) in CALLS {
        if left < weight {
            return call;
        }
        left -= weight;
    }
    unreachable!("the weights add up to the total")
}
