//! The files that `generate SEED COUNT DIR` writes: kinds in turn, so that any
//! few dozen files hold every kind.

use crate::damage;
use crate::random::Random;
use crate::systems::*;
use crate::write::file_of;

/// One file in this many takes a million visits; they are slow.
const TIRELESS_EVERY: usize = 50;

const KINDS: [&str; 15] = [
    "small",
    "planted",
    "truncated",
    "sparse",
    "faulty",
    "planted-large",
    "flipped",
    "zero",
    "extreme",
    "extended",
    "outgrown",
    "large",
    "faulty",
    "filling",
    "deep",
];

/// The name and the bytes of each file.
pub fn generate(seed: u64, count: usize) -> impl Iterator<Item = (String, Vec<u8>)> {
    (0..count).map(move |index| {
        // Each file has a generator of its own: a file does not depend on COUNT.
        let mut random = Random::new(Random::new(seed ^ (index as u64) << 32).draw());
        let kind = match index % TIRELESS_EVERY {
            49 => "tireless",
            _ => KINDS[index % KINDS.len()],
        };
        let name = format!("{index:06}-{kind}.system");
        (name, file_of_kind(&mut random, kind))
    })
}

fn file_of_kind(random: &mut Random, kind: &str) -> Vec<u8> {
    let damage = match kind {
        "truncated" => damage::truncated,
        "flipped" => damage::flipped,
        "extended" => damage::extended,
        "faulty" => damage::faulty,
        _ => {
            let system = system_of_kind(random, kind);
            return file_of(&system.head, &system.coefficients);
        }
    };
    let system = any_system(random);
    damage(random, &file_of(&system.head, &system.coefficients))
}

/// A system of any shape that is quickly solved.
pub fn any_system(random: &mut Random) -> System {
    let kind = random.pick(&[
        "small",
        "planted",
        "sparse",
        "planted-large",
        "zero",
        "large",
    ]);
    system_of_kind(random, kind)
}

fn system_of_kind(random: &mut Random, kind: &str) -> System {
    let deepest = random.pick(&[2, 5, 10]);
    let head = any_head(random, deepest);
    let of_size = |random: &mut Random, limit, sparse| System {
        head,
        coefficients: any_coefficients(random, &head, limit, sparse),
    };
    match kind {
        "small" => of_size(random, 9, 1),
        "sparse" => of_size(random, 99, 4),
        "large" => of_size(random, 1_000_000_000, 1),
        "extreme" => extreme(random, head),
        "planted" => planted(random, head),
        "planted-large" => {
            let system = planted(random, head);
            enlarged(random, system)
        }
        "zero" => {
            let system = planted(random, head);
            some_zero(random, system)
        }
        "outgrown" => outgrown(random),
        "filling" => filling(random),
        "deep" => deep(random),
        _ => tireless(random),
    }
}
