//! Names with a slip in them, as somebody types them: they are names still, but most of them have no row.

use days::Seeded;

const MOST_CHARACTERS: usize = 16;

/// Characters that may stand anywhere in a name, also at its beginning.
const ANYWHERE: &[u8] = b"abcdefglnopxyzACNZ_";

type Slip = fn(&mut Seeded, &mut Vec<u8>);

const SLIPS: [Slip; 5] = [
    |random, name| another_character(random, name),
    one_character_more,
    one_character_less,
    |random, name| the_other_case(random, name),
    |random, name| exchange_neighbours(random, name),
];

/// The name with one slip. One that can't be made in this name leaves it as it is, and one may happen to make another row's name.
pub fn damaged_name(random: &mut Seeded, name: &str) -> Vec<u8> {
    let mut damaged = name.as_bytes().to_vec();
    let slip = *random.pick(&SLIPS);
    slip(random, &mut damaged);
    damaged
}

fn another_character(random: &mut Seeded, name: &mut [u8]) {
    let place = random.below(name.len());
    name[place] = *random.pick(ANYWHERE);
}

fn one_character_more(random: &mut Seeded, name: &mut Vec<u8>) {
    if name.len() < MOST_CHARACTERS {
        name.insert(random.below(name.len() + 1), *random.pick(ANYWHERE));
    }
}

/// The first character stays here and where neighbours change places, since not every other may take its place.
fn one_character_less(random: &mut Seeded, name: &mut Vec<u8>) {
    if name.len() > 1 {
        name.remove(1 + random.below(name.len() - 1));
    }
}

fn the_other_case(random: &mut Seeded, name: &mut [u8]) {
    let place = random.below(name.len());
    if name[place].is_ascii_alphabetic() {
        name[place] ^= b'a' ^ b'A';
    }
}

fn exchange_neighbours(random: &mut Seeded, name: &mut [u8]) {
    if name.len() > 2 {
        let place = 1 + random.below(name.len() - 2);
        name.swap(place, place + 1);
    }
}

#[cfg(test)]
mod tests {
    use super::damaged_name;
    use crate::random_days::NAMES;
    use days::Seeded;
    use evaluator::Asked;
    use std::collections::BTreeSet;

    const NO_ROWS: [u8; 4] = [0, 0, 1, 0];

    #[test]
    fn damaged_names_are_names_and_of_many_kinds() {
        let random = &mut Seeded::new(61);
        let mut seen = BTreeSet::new();
        for name in NAMES {
            let damaged: BTreeSet<Vec<u8>> = (0..1_000).map(|_| damaged_name(random, name)).collect();
            assert!(damaged.len() > 20, "{name}");
            seen.extend(damaged);
        }
        for name in &seen {
            assert!(Asked::read(&NO_ROWS, &[b"//", name.as_slice()].concat()).is_ok(), "{}", name.escape_ascii());
        }
        for name in ["cancle", "cance", "cancell", "Cancel", "abcdefghijklmnoP"] {
            assert!(seen.contains(name.as_bytes()), "{name} is not seen");
        }
    }
}
