//! The fewest commands that receive every wanted descriptor whole, found by trying every list of starts.

use crate::command::{most_bytes, respond, Request};
use crate::numbers::ACCEPTED;
use crate::reading::{read, whole};
use crate::sheet::Layout;
use crate::wire::Feature;

/// The descriptors that one command receives whole, each as its number and its bytes.
fn received(sheet: &[u8], request: Request) -> Vec<(Feature, u8, Vec<u8>)> {
    let most = most_bytes(request.allocation);
    let mut response = vec![0; most];
    let count = respond(Layout::Rows, sheet, &request.bytes(), &mut response).unwrap_or(0);
    let sent = &response[..count];
    let reading = read(request.rt, request.sfn, sent, Some(most));
    if reading.number != ACCEPTED {
        return Vec::new();
    }
    whole(sent, &reading).map(|one| (one.feature, one.flags, one.body.to_vec())).collect()
}

/// Whether some list of `left` more starts receives what is still missing; a set is a number, a bit for each descriptor.
fn within(sets: &[u64], got: u64, all: u64, left: usize) -> bool {
    got == all || (left > 0 && sets.iter().any(|set| within(sets, got | set, all, left - 1)))
}

/// The length of the shortest list of starts, of any of these and in any order, that receives every descriptor wanted with
/// RT 0 or 1 whole. None where no list does. For sheets with at most 64 features whose response fits 65,534 bytes.
pub fn fewest(sheet: &[u8], rt: u8, allocation: u16, starts: &[u16]) -> Option<usize> {
    let wanted = received(sheet, Request { rt, sfn: Feature(0), allocation: 65_535 });
    let all = wanted.iter().fold(0, |set, _| set << 1 | 1);
    let set_of = |start: &u16| {
        let got = received(sheet, Request { rt, sfn: Feature(*start), allocation });
        (0..wanted.len()).filter(|&at| got.contains(&wanted[at])).fold(0, |set, at| set | 1 << at)
    };
    let sets: Vec<u64> = starts.iter().map(set_of).collect();
    // A list with each start has all that any list has, so that a longer one than there are descriptors is never needed.
    (0..=wanted.len()).find(|&count| within(&sets, 0, all, count))
}
