//! gcf_mend.

use super::READING;
use crate::lent::{Given, Memory};
use crate::made::damage::damage;
use crate::made::faults::{each_faulty_response, each_pair, fault, Fault, RESPONSE_FAULTS};
use crate::made::responses::{
    each_ruled_bit, each_short, long_responses, random_response, random_ruled, response_of, ruled_parts,
};
use crate::made::Part;
use crate::random::Random;
use crate::run::{Cases, Input, Kind, Run};
use gcf::raw;
use second::mend::{changes, undo, Change};

pub const KIND: Kind = Kind { name: "gcf_mend", answers, cases: Cases::Of(fixed, random) };

/// A reading's, 29, 49 and 50.
fn answers() -> Vec<u64> {
    READING.into_iter().chain([29, 49, 50]).collect()
}

/// How long the lent buffers are: for the copy and the list.
#[derive(Clone, Copy)]
struct Rooms {
    copy: usize,
    list: usize,
}

/// Compares one mending.
fn compare(run: &mut Run, response: &[u8], rooms: Rooms) -> u64 {
    let response = Given::new(response);
    run.compare(
        &[
            Input::Bytes("response", &response),
            Input::Number("room for the copy", rooms.copy as u64),
            Input::Number("room for changes", rooms.list as u64),
        ],
        Memory::none().with_buffer(rooms.copy).with_changes(rooms.list),
        |memory| {
            let (copy, list) = (memory.first.part(), memory.changes.part());
            u64::from(memory.told.by(|mended| raw::mend(response.proved(), copy, list, mended)))
        },
        |memory| {
            let made = second::mend::mend(response.plain(), memory.first.part(), memory.changes.part());
            let (length, changes) = made.unwrap_or((0, 0));
            memory.told.give(&[length as u64, changes as u64]);
            u64::from(made.err().unwrap_or(0))
        },
    )
}

/// Compares a mending with room enough, and sees by the proved side alone what is promised of it.
fn see(run: &mut Run, response: &[u8]) {
    let length = response.len();
    let answer = compare(run, response, Rooms { copy: length, list: length });
    if answer == 0 {
        promised(run, response);
    }
}

/// Sees that undoing the list gives the original, that mending again changes nothing, that the check finds only 30, 31 or 39, that what it accepts stays, and that
/// a list without a place to spare is enough.
fn promised(run: &mut Run, response: &[u8]) {
    let (mut copy, mut again) = (vec![0xA5; response.len()], vec![0xA5; response.len()]);
    let (mut list, mut mended) = (vec![0; response.len()], raw::Mended::default());
    raw::mend(response, &mut copy, &mut list, &mut mended);
    let listed: Vec<Change> = list[..mended.changes as usize].iter().map(|&line| Change::of(line)).collect();
    let second = raw::mend(&copy, &mut again, &mut [], &mut mended);
    let found = |response: &[u8]| raw::check_descriptors(response, &mut raw::Finding::default());
    let (before, after) = (found(response), found(&copy));
    let holds = listed == changes(response, &copy)
        && undo(&listed, &copy) == response
        && (second, mended) == (0, raw::Mended { bytes: response.len() as u64, changes: 0 })
        && again == copy
        && [0, 30, 31, 39].contains(&after)
        && (before != 0 || copy == response);
    run.holds(holds, "what is promised of a mending", &[Input::Bytes("response", &Given::new(response))]);
}

fn fixed(run: &mut Run) {
    each_two_faults(run);
    each_room(run);
    each_faulty_response(&mut |response: &[u8]| see(run, response));
    each_short(&mut |response: &[u8]| see(run, response));
    long_responses().iter().for_each(|response| see(run, response));
    each_ruled_bit(&mut |response: &[u8]| see(run, response));
    each_byte(run);
    each_flags(run);
    each_version(run);
    each_length(run);
    each_count_of_link_sizes(run);
}

/// A response, and the rooms.
#[derive(Clone)]
struct Asked {
    bytes: Vec<u8>,
    copy: usize,
    list: usize,
}

/// Each two faults of the response and of the two buffers, in their order.
fn each_two_faults(run: &mut Run) {
    let mut stray = ruled_parts();
    stray.iter_mut().for_each(|part| part.1 |= 0x40);
    let bytes = response_of(0x0012, &stray);
    let mut faults: Vec<Fault<Asked>> = Vec::new();
    for (number, damage) in RESPONSE_FAULTS {
        faults.push(fault(number, move |asked: &mut Asked| damage(&mut asked.bytes)));
    }
    faults.push(fault(49, |asked: &mut Asked| asked.copy = 0));
    faults.push(fault(49, |asked: &mut Asked| asked.copy = asked.bytes.len().saturating_sub(1)));
    faults.push(fault(50, |asked: &mut Asked| asked.list = 0));
    faults.push(fault(50, |asked: &mut Asked| asked.list -= 1));
    let good = Asked { copy: bytes.len(), list: stray.len(), bytes };
    each_pair(&good, &faults, &mut |asked, (number, _)| {
        let answer = compare(run, &asked.bytes, Rooms { copy: asked.copy, list: asked.list });
        run.expect(answer, u64::from(number));
    });
}

/// Each room for the copy and for the list, from none to more than enough, where 13 bytes change.
fn each_room(run: &mut Run) {
    let mut stray = ruled_parts();
    stray.iter_mut().for_each(|part| part.1 |= 0x80);
    let (bytes, count) = (response_of(0x0012, &stray), stray.len());
    for copy in 0..bytes.len() + 9 {
        for list in [0, count - 1, count, count + 5] {
            let answer = compare(run, &bytes, Rooms { copy, list });
            let wanted = if copy < bytes.len() {
                49
            } else if list < count {
                50
            } else {
                0
            };
            run.expect(answer, wanted);
        }
    }
    for list in 0..count + 5 {
        let answer = compare(run, &bytes, Rooms { copy: bytes.len(), list });
        run.expect(answer, if list < count { 50 } else { 0 });
    }
}

/// A response of all features that have rules, with all bits set or cleared of each byte.
fn each_byte(run: &mut Run) {
    let bytes = response_of(0x0012, &ruled_parts());
    for at in 0..bytes.len() {
        for byte in [0, 0xFF] {
            let mut changed = bytes.clone();
            changed[at] = byte;
            see(run, &changed);
        }
    }
}

/// Each feature that has rules with each flags byte, with and without 0003h.
fn each_flags(run: &mut Run) {
    let with = ruled_parts();
    let without: Vec<Part> = with.iter().filter(|part| part.0 != 3).cloned().collect();
    for parts in [with, without] {
        for at in 0..parts.len() {
            for flags in 0..=255 {
                let mut changed = parts.clone();
                changed[at].1 = flags;
                see(run, &response_of(0x0012, &changed));
            }
        }
    }
}

/// Each feature that has rules with each Version, lengths below, at and above its own, and any bits.
fn each_version(run: &mut Run) {
    let parts = ruled_parts();
    for at in 0..parts.len() {
        for version in 0..16 {
            for length in (0..=24).step_by(4).chain([252]) {
                let mut changed = parts.clone();
                changed[at].1 = changed[at].1 & 3 | version << 2;
                changed[at].2 = vec![0xFF; length];
                see(run, &response_of(0, &changed));
            }
        }
    }
}

/// Each feature that has rules with each length of body, all zero and all ones.
fn each_length(run: &mut Run) {
    let parts = ruled_parts();
    for at in 0..parts.len() {
        for length in (0..=252).step_by(4) {
            for byte in [0, 0x5F, 0xFF] {
                let mut changed = parts.clone();
                changed[at].2 = vec![byte; length];
                see(run, &response_of(0, &changed));
            }
        }
    }
}

/// Feature 0021h with each count of link sizes and lengths about it, all bits set but those of the count.
fn each_count_of_link_sizes(run: &mut Run) {
    let at = ruled_parts().iter().position(|part| part.0 == 0x21).unwrap_or(0);
    for count in 0..=255 {
        let fitting = (4 + (usize::from(count) + 3) / 4 * 4).min(252);
        for length in [4, fitting - 4, fitting, (fitting + 4).min(252)] {
            let mut parts = ruled_parts();
            parts[at].2 = vec![0xFF; length];
            parts[at].2.iter_mut().skip(3).take(1).for_each(|byte| *byte = count);
            see(run, &response_of(0, &parts));
        }
    }
}

fn random(run: &mut Run, random: &mut Random) {
    for _ in 0..8 {
        let mut response = random_ruled(random);
        see(run, &response);
        let rooms =
            Rooms { copy: (response.len() + random.below(5)).saturating_sub(2), list: random.below(8) };
        compare(run, &response, rooms);
        damage(random, &mut response);
        see(run, &response);
    }
    let made = random_response(random, 0).bytes;
    see(run, &made);
}
