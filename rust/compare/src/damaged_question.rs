//! Questions with something wrong in them, or near that.

use days::Seeded;

type Damage = fn(&mut Seeded, &mut Vec<u8>);

const DAMAGES: [Damage; 10] = [
    |random, text| change_a_byte(random, text),
    remove_a_byte,
    insert_a_byte,
    end_early,
    add_at_the_end,
    repeat_to_the_longest_text,
    nest_deeply,
    lengthen_a_name,
    only_parts_of_the_notation,
    any_bytes,
];

/// Bytes that mean something in a question, and some that never do.
const BYTES: &[u8] = b"//[]]azAZ_09-.: \n\t@`{\x00\x7f\x80\xff";

/// Does one damage.
pub fn damage_question(random: &mut Seeded, text: &mut Vec<u8>) {
    let damage = *random.pick(&DAMAGES);
    damage(random, text);
}

fn change_a_byte(random: &mut Seeded, text: &mut [u8]) {
    let place = random.below(text.len());
    text[place] = *random.pick(BYTES);
}

fn remove_a_byte(random: &mut Seeded, text: &mut Vec<u8>) {
    text.remove(random.below(text.len()));
}

fn insert_a_byte(random: &mut Seeded, text: &mut Vec<u8>) {
    text.insert(random.below(text.len() + 1), *random.pick(BYTES));
}

fn end_early(random: &mut Seeded, text: &mut Vec<u8>) {
    text.truncate(random.below(text.len()));
}

fn add_at_the_end(random: &mut Seeded, text: &mut Vec<u8>) {
    let addition: &&[u8] = random.pick(&[b"\n", b" ", b"]", b"[", b"/", b"//", b"[//a]", b"[//a]]", b"\x00"]);
    text.extend(*addition);
}

/// The question again and again, up to about 1,024 bytes; sometimes only whole questions, so that the text follows the notation.
fn repeat_to_the_longest_text(random: &mut Seeded, text: &mut Vec<u8>) {
    let length = *random.pick(&[1_000, 1_023, 1_024, 1_025, 1_026, 2_000]);
    let rest = if random.chance(1, 2) { length % text.len() } else { 0 };
    *text = text.iter().copied().cycle().take(length - rest).collect();
}

/// Brackets far deeper than 8, or about so; sometimes with one closed too few or too many.
fn nest_deeply(random: &mut Seeded, text: &mut Vec<u8>) {
    let depth = if random.chance(1, 2) { random.below(12) } else { random.below(205) };
    let closed = if random.chance(3, 4) { depth } else { (depth + random.below(3)).saturating_sub(1) };
    *text = ["//a[".repeat(depth), "//a".to_string(), "]".repeat(closed)].concat().into_bytes();
}

/// A name of about 16 characters at the end of the text.
fn lengthen_a_name(random: &mut Seeded, text: &mut Vec<u8>) {
    text.extend(b"//");
    text.extend(vec![b'a'; 15 + random.below(3)]);
}

fn only_parts_of_the_notation(random: &mut Seeded, text: &mut Vec<u8>) {
    let parts = ["//", "/", "[", "]", "a", "call", "1", "[//a]", "[//a", "//a", "//_.-", "//a]"];
    *text = (0..random.below(10)).flat_map(|_| random.pick(&parts).bytes()).collect();
}

fn any_bytes(random: &mut Seeded, text: &mut Vec<u8>) {
    *text = (0..random.below(40)).map(|_| random.below(256) as u8).collect();
}
