//! Damage to bytes: flipped bits, changed, lost and added bytes.

use crate::random::Random;

/// Shows the bytes with one bit flipped: each in turn, or every so many-th.
pub fn each_flip(bytes: &mut [u8], step: usize, mut see: impl FnMut(&mut [u8])) {
    for bit in (0..8 * bytes.len()).step_by(step) {
        bytes[bit / 8] ^= 1 << (bit % 8);
        see(bytes);
        bytes[bit / 8] ^= 1 << (bit % 8);
    }
}

/// Damages the bytes in one to three ways.
pub fn damage(random: &mut Random, bytes: &mut Vec<u8>) {
    for _ in 0..=random.below(3) {
        damage_once(random, bytes);
    }
}

/// Damages the bytes in one way.
fn damage_once(random: &mut Random, bytes: &mut Vec<u8>) {
    let at = place(random, bytes.len());
    match random.below(8) {
        0 => bytes.truncate(at),
        1 => bytes.insert(at, random.byte()),
        2 => {
            let more = 1 + random.below(8);
            let added = random.bytes(more);
            bytes.extend_from_slice(&added);
        }
        3 if at < bytes.len() => {
            bytes.remove(at);
        }
        4 if at < bytes.len() => bytes[at] = random.byte(),
        5 if at < bytes.len() => bytes[at] = bytes[at].wrapping_add(random.one_of(&[1, 4, 252, 255])),
        _ if at < bytes.len() => bytes[at] ^= 1 << random.below(8),
        _ => {}
    }
}

/// A place in so many bytes, more often in front, where most fields are.
fn place(random: &mut Random, length: usize) -> usize {
    if random.once_in(2) {
        return random.below(length.min(64) + 1);
    }
    random.below(length + 1)
}
