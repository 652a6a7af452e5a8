//! gcf_check_profile.

use super::READING;
use crate::lent::{Given, Memory};
use crate::made::damage::damage;
use crate::made::faults::each_faulty_response;
use crate::made::responses::{
    each_short, long_responses, random_response, random_ruled, response_of, ruled_parts, sent,
};
use crate::made::sheets::E;
use crate::made::Part;
use crate::random::Random;
use crate::run::{Cases, Input, Kind, Run};
use gcf::raw;
use second::wire::Profile;

pub const KIND: Kind = Kind { name: "gcf_check_profile", answers, cases: Cases::Of(fixed, random) };

/// A reading's, 29 and 40.
fn answers() -> Vec<u64> {
    READING.into_iter().chain([29, 40]).collect()
}

/// The profiles that have a table, and one that has none.
const JUDGED: [u16; 7] = [0x0000, 0x0002, 0x0008, 0x0009, 0x0010, 0x0012, 0xFFFF];

/// Compares one check.
fn compare(run: &mut Run, profile: u16, response: &Given) -> u64 {
    run.compare(
        &[Input::Number("profile", u64::from(profile)), Input::Bytes("response", response)],
        Memory::none(),
        |memory| {
            let judge =
                |judgement: &mut _| raw::check_profile(gcf::Profile(profile), response.proved(), judgement);
            u64::from(memory.told.by(judge))
        },
        |memory| {
            let (number, wrong, feature) =
                second::checks::check_profile(Profile(profile), response.plain()).fields();
            memory.told.give(&[u64::from(wrong), u64::from(feature.0)]);
            u64::from(number)
        },
    )
}

fn fixed(run: &mut Run) {
    let example = Given::new(&sent(&E, 0, 0, 65_535));
    for profile in 0..=65_535 {
        compare(run, profile, &example);
    }
    let mut see = |response: &[u8]| {
        let given = Given::new(response);
        for profile in JUDGED {
            compare(run, profile, &given);
        }
    };
    each_faulty_response(&mut see);
    each_short(&mut see);
    long_responses().iter().for_each(|response| see(response));
    each_feature_missing(run);
    each_feature_bent(run);
    each_length(run);
    each_random_readable(run);
}

/// What a drive has that any profile with a table is content with, and a feature that none needs.
fn needed_parts() -> Vec<Part> {
    let mut parts = ruled_parts();
    parts.push((0x001E, 1, vec![]));
    parts.push((0x0055, 1, vec![]));
    parts.sort();
    parts
}

/// Responses without one of the features, or without two of them.
fn each_feature_missing(run: &mut Run) {
    let parts = needed_parts();
    for one in 0..parts.len() {
        for two in 0..parts.len() {
            let (one, two) = (parts[one].0, parts[two].0);
            let left: Vec<_> = parts.iter().filter(|part| part.0 != one && part.0 != two).cloned().collect();
            see_all(run, &left);
        }
    }
}

/// One check for each profile.
fn see_all(run: &mut Run, parts: &[Part]) {
    let given = Given::new(&response_of(0x0012, parts));
    for profile in JUDGED {
        compare(run, profile, &given);
    }
}

/// What can be bent about a descriptor so that a line of a table is not met: a shorter body, a bit or Current not set, and a body too long for the archive subset.
fn bent(part: &Part) -> Vec<Part> {
    let (feature, flags, body) = part;
    let mut bent: Vec<Part> = vec![
        (*feature, flags & !1, body.clone()),
        (*feature, *flags, body[..body.len() / 8 * 4].to_vec()),
        (*feature, *flags, [&body[..], &[0; 40]].concat()[..36].to_vec()),
        (*feature, flags & !1, vec![0; 36]),
    ];
    for byte in 0..body.len() {
        let mut clear = body.clone();
        clear[byte] &= !1;
        bent.push((*feature, *flags, clear));
    }
    bent
}

/// Each feature bent in each way, alone and with another one that is bent or missing.
fn each_feature_bent(run: &mut Run) {
    let parts = needed_parts();
    for one in 0..parts.len() {
        for way in bent(&parts[one]) {
            let mut changed = parts.clone();
            changed[one] = way;
            see_all(run, &changed);
            for two in (0..parts.len()).filter(|&two| two != one) {
                let mut second = changed.clone();
                second.remove(two);
                see_all(run, &second);
                changed.clone_into(&mut second);
                second[two].2 = vec![0; 36];
                see_all(run, &second);
                changed.clone_into(&mut second);
                second[two].1 &= !1;
                see_all(run, &second);
            }
        }
    }
}

/// Each feature, needed or not, with each length that a body can have.
fn each_length(run: &mut Run) {
    let parts = needed_parts();
    for one in 0..parts.len() {
        for length in (0..=252).step_by(4) {
            let mut changed = parts.clone();
            changed[one].2 = vec![0xFF; length];
            see_all(run, &changed);
        }
    }
}

/// Feature 0010h with each length, with none or all of its bits, and with each bit of it alone.
fn each_random_readable(run: &mut Run) {
    let mut parts = ruled_parts();
    for length in (0..=252).step_by(4) {
        for byte in [0, 0xFF] {
            parts[4].2 = vec![byte; length];
            compare(run, 0x0012, &Given::new(&response_of(0, &parts)));
        }
    }
    for length in [8, 12] {
        for bit in 0..8 * length {
            parts[4].2 = vec![0; length];
            parts[4].2[bit / 8] = 1 << (bit % 8);
            compare(run, 0x0012, &Given::new(&response_of(0, &parts)));
        }
    }
}

fn random(run: &mut Run, random: &mut Random) {
    for _ in 0..6 {
        let mut response =
            if random.once_in(4) { random_response(random, 0).bytes } else { random_ruled(random) };
        if random.once_in(4) {
            damage(random, &mut response);
        }
        let given = Given::new(&response);
        for _ in 0..2 {
            let profile =
                random.one_of(&[0x0000, 0x0000, 0x0002, 0x0008, 0x0010, 0x0012, 0xFFFF, 0x0009, 0x1200]);
            compare(run, profile, &given);
        }
    }
}
