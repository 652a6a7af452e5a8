//! gcf_read_sense.

use crate::made::damage::damage;
use crate::random::Random;
use crate::run::{Cases, Kind, Run};
use gcf::raw;
use second::sense;

pub const KIND: Kind = Kind { name: "gcf_read_sense", answers, cases: Cases::Of(fixed, random) };

fn answers() -> Vec<u64> {
    vec![0, 46, 47, 48]
}

/// A number of each kind.
const EACH: [u8; 4] = [0, 9, 11, 1];

/// The bytes of a number's kind, by the plain side.
fn made(number: u8) -> Vec<u8> {
    let mut bytes = vec![0; 18];
    let _ = sense::make(number, &mut bytes);
    bytes
}

/// Compares one reading.
fn compare(run: &mut Run, bytes: &[u8]) -> u64 {
    run.compare_said("sense", bytes, raw::read_sense, |bytes| {
        let read = sense::read(bytes);
        (read.err().unwrap_or(0), read.map_or(0, |kind| kind as u64 + 1))
    })
}

fn fixed(run: &mut Run) {
    for number in EACH {
        let bytes = made(number);
        let answer = compare(run, &bytes);
        run.expect(answer, 0);
        each_length(run, &bytes);
        each_value(run, &bytes);
        each_two_bits(run, bytes);
    }
}

/// The bytes cut or with more behind them, from 0 to 40 in all.
fn each_length(run: &mut Run, bytes: &[u8]) {
    let mut longer = bytes.to_vec();
    longer.resize(40, 0);
    for length in 0..=40 {
        let answer = compare(run, &longer[..length]);
        run.expect(answer, if length == 18 { 0 } else { 46 });
    }
}

/// Each value of each byte.
fn each_value(run: &mut Run, bytes: &[u8]) {
    for at in 0..bytes.len() {
        for value in 0..=255 {
            let mut changed = bytes.to_vec();
            changed[at] = value;
            compare(run, &changed);
        }
    }
}

/// Each single bit and each two bits flipped.
fn each_two_bits(run: &mut Run, mut bytes: Vec<u8>) {
    for one in 0..8 * bytes.len() {
        bytes[one / 8] ^= 1 << (one % 8);
        compare(run, &bytes);
        for two in 0..one {
            bytes[two / 8] ^= 1 << (two % 8);
            compare(run, &bytes);
            bytes[two / 8] ^= 1 << (two % 8);
        }
        bytes[one / 8] ^= 1 << (one % 8);
    }
}

fn random(run: &mut Run, random: &mut Random) {
    let mut bytes = made(random.one_of(&EACH));
    for _ in 0..=random.below(4) {
        let at = random.below(bytes.len());
        bytes[at] = random.byte();
    }
    compare(run, &bytes);
    damage(random, &mut bytes);
    compare(run, &bytes);
    let length = random.below(41);
    compare(run, &random.bytes(length));
}
