//! gcf_check_descriptors.

use super::READING;
use crate::made::damage::damage;
use crate::made::faults::{each_faulty_response, each_pair, fault, Fault, RESPONSE_FAULTS};
use crate::made::responses::{
    each_ruled_bit, each_short, long_responses, random_response, random_ruled, response_of, ruled_parts,
};
use crate::made::Part;
use crate::random::Random;
use crate::run::{Cases, Kind, Run};
use gcf::raw;

pub const KIND: Kind = Kind { name: "gcf_check_descriptors", answers, cases: Cases::Of(fixed, random) };

/// A reading's, 29, and the findings; 38 is not given.
fn answers() -> Vec<u64> {
    READING.into_iter().chain(29..=37).chain([39]).collect()
}

/// Compares one check.
fn compare(run: &mut Run, response: &[u8]) -> u64 {
    run.compare_said("response", response, raw::check_descriptors, |response| {
        let (number, feature) = second::checks::check_descriptors(response);
        (number, u64::from(feature.0))
    })
}

fn fixed(run: &mut Run) {
    each_two_faults(run);
    let mut see = |response: &[u8]| {
        compare(run, response);
    };
    each_faulty_response(&mut see);
    each_short(&mut see);
    long_responses().iter().for_each(|response| see(response));
    each_ruled_bit(&mut see);
    each_length(run);
    each_version(run);
    each_count_of_link_sizes(run);
}

/// Descriptors, and what happens to the bytes of their response.
#[derive(Clone)]
struct Checked {
    parts: Vec<Part>,
    damage: Vec<fn(&mut Vec<u8>)>,
}

impl Checked {
    /// The response's bytes.
    fn response(&self) -> Vec<u8> {
        let mut bytes = response_of(0x0012, &self.parts);
        self.damage.iter().for_each(|damage| damage(&mut bytes));
        bytes
    }
}

/// A fault of the descriptor of a feature.
fn of_part(number: u8, feature: u16, bend: impl Fn(&mut Part) + 'static) -> Fault<Checked> {
    fault(number, move |checked: &mut Checked| {
        checked.parts.iter_mut().filter(|part| part.0 == feature).for_each(&bend);
    })
}

/// Each two faults, of the response and of its descriptors in their order.
fn each_two_faults(run: &mut Run) {
    let good = Checked { parts: ruled_parts(), damage: vec![] };
    let answer = compare(run, &good.response());
    run.expect(answer, 0);
    let mut faults: Vec<Fault<Checked>> = Vec::new();
    for (number, damage) in RESPONSE_FAULTS {
        faults.push(fault(number, move |checked: &mut Checked| checked.damage.push(damage)));
    }
    for feature in 0..2 {
        faults.push(fault(30, move |checked: &mut Checked| checked.parts.retain(|part| part.0 != feature)));
    }
    for (feature, _, _) in ruled_parts() {
        part_faults(feature, &mut faults);
    }
    each_pair(&good, &faults, &mut |checked, (number, _)| {
        let answer = compare(run, &checked.response());
        run.expect(answer, u64::from(number));
    });
}

/// The features that can't be Persistent where the medium can be removed.
const OF_MEDIUM: [u16; 7] = [0x1F, 0x20, 0x21, 0x26, 0x2D, 0x2E, 0x2F];

/// The faults of a feature's descriptor, in their order.
fn part_faults(feature: u16, faults: &mut Vec<Fault<Checked>>) {
    let of_medium = OF_MEDIUM.contains(&feature);
    faults.push(of_part(33, feature, |part| part.1 |= 0x40));
    faults.push(of_part(33, feature, |part| part.1 |= 0x84));
    faults.push(of_part(34, feature, |part| part.1 = part.1 & 0xFC | 2));
    if of_medium || (1..=3).contains(&feature) {
        faults.push(of_part(31, feature, |part| part.2.extend_from_slice(&[0; 8])));
    }
    if of_medium && feature != 0x1F || (1..=3).contains(&feature) {
        faults.push(of_part(31, feature, |part| part.2.clear()));
    }
    if feature <= 3 {
        faults.push(of_part(32, feature, |part| part.1 = part.1 & 0xFC | 1));
        faults.push(of_part(32, feature, |part| part.1 &= 0xFC));
    }
    if of_medium {
        faults.push(of_part(35, feature, |part| part.1 |= 3));
    }
    for (of, at, bits) in [
        (0, 2, 2),
        (0, 7, 1),
        (2, 0, 2),
        (3, 0, 0x10),
        (0x20, 10, 2),
        (0x20, 11, 0x80),
        (0x21, 0, 1),
        (0x21, 9, 1),
        (0x2D, 0, 8),
        (0x2E, 0, 0x40),
        (0x2F, 3, 1),
    ] {
        if of == feature {
            faults.push(of_part(36, feature, move |part| part.2[at] |= bits));
        }
    }
    if feature == 0x2E {
        faults.push(of_part(37, feature, |part| part.2[0] &= 0xDF));
    }
    if feature == 0 {
        faults.push(of_part(39, feature, |part| part.2[4..6].fill(0)));
    }
}

/// Each feature that has rules with each length of body, all zero and all ones.
fn each_length(run: &mut Run) {
    let parts = ruled_parts();
    for at in 0..parts.len() {
        for length in (0..=252).step_by(4) {
            for byte in [0, 0xFF] {
                let mut changed = parts.clone();
                changed[at].2 = vec![byte; length];
                compare(run, &response_of(0, &changed));
            }
        }
    }
}

/// The least length of a feature's body; 0021h counts 5 link sizes where it has byte 7.
fn least(feature: u16, length: usize) -> usize {
    match feature {
        1..=3 | 0x26 | 0x2D..=0x2F => 4,
        0x20 => 12,
        0x21 if length < 4 => 4,
        0x21 => 9,
        _ => 0,
    }
}

/// What a Version above 0 is told, where 0003h is reported: what stands in the body does not matter.
fn newer_told(feature: u16, flags: u8, length: usize) -> u64 {
    match flags {
        2 => 34,
        _ if length < least(feature, length) => 31,
        0 | 1 if feature <= 3 => 32,
        3 if OF_MEDIUM.contains(&feature) => 35,
        _ => 0,
    }
}

/// Each feature that has rules with each Version, each of the other flags and lengths below, at and above its own.
fn each_version(run: &mut Run) {
    let parts = ruled_parts();
    for at in 0..parts.len() {
        let feature = parts[at].0;
        for (version, flags) in (0..16).flat_map(|version| (0..4).map(move |flags| (version, flags))) {
            for length in (0..=24).step_by(4).chain([252]) {
                for byte in [0, 0xFF] {
                    let mut changed = parts.clone();
                    let mut body = vec![byte; length];
                    body.iter_mut().skip(3).take(1).for_each(|count| *count = 5);
                    changed[at] = (feature, flags | version << 2, body);
                    let answer = compare(run, &response_of(0, &changed));
                    if version > 0 {
                        run.expect(answer, newer_told(feature, flags, length));
                    }
                }
            }
        }
    }
}

/// Feature 0021h with each count of link sizes and each length, and one bit in each byte behind.
fn each_count_of_link_sizes(run: &mut Run) {
    for count in 0..=255 {
        let fitting = (4 + (usize::from(count) + 3) / 4 * 4).min(252);
        for length in [4, fitting - 4, fitting, (fitting + 4).min(252)] {
            let mut parts = ruled_parts();
            parts[7].2 = vec![0; length];
            if length >= 4 {
                parts[7].2[3] = count;
            }
            compare(run, &response_of(0, &parts));
            for back in 1..=4 {
                if length >= 4 + back {
                    let mut bent = parts.clone();
                    bent[7].2[length - back] = 1;
                    compare(run, &response_of(0, &bent));
                }
            }
        }
    }
}

fn random(run: &mut Run, random: &mut Random) {
    for _ in 0..8 {
        let response = random_ruled(random);
        compare(run, &response);
    }
    let mut made = random_response(random, 0).bytes;
    if random.once_in(2) {
        damage(random, &mut made);
    }
    compare(run, &made);
}
