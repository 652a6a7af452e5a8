//! The judge of another box: the right box is exact, and a box that makes a mistake is found out.

use super::cross::make_sheet;
use super::{ask, command, Numbers, E};
use crate::judge::{judge, Mistake, Verdict};
use crate::numbers::*;
use crate::sheet::Layout::Rows;
use crate::sheet::{build, ListedProfile};
use crate::wire::{Descriptor, Feature, Profile};

fn said(sheet: &[u8], rt: u8, sfn: u16, allocation: u16, response: &[u8]) -> Verdict {
    judge(Rows, sheet, &command(rt, sfn, allocation), response, 65534).unwrap().0
}

/// A drive with two current profiles, a third one, and a feature that is not current.
fn sheet() -> Vec<u8> {
    let profile = |number, current| ListedProfile { number: Profile(number), current };
    let feature = |number, flags, body| Descriptor { feature: Feature(number), flags, body };
    build(
        &[profile(0x10, true), profile(0x12, true), profile(0x14, false)],
        &[feature(1, 3, &[0, 0, 0, 2]), feature(0x1F, 0, &[]), feature(0x105, 1, &[])],
    )
    .unwrap()
}

#[test]
fn the_right_box_is_exact() {
    let mut numbers = Numbers(43);
    for start in 0..40 {
        let sheet = make_sheet(&mut numbers, 12);
        for rt in 0..3 {
            for allocation in [0, 3, 4, 8, 12, 100, 65535] {
                let (number, sent) = ask(&sheet, rt, start, allocation);
                assert_eq!(number, ACCEPTED);
                assert_eq!(said(&sheet, rt, start, allocation, &sent), Verdict::Exact);
                let padded: Vec<u8> = sent.iter().copied().chain([0]).collect();
                assert_eq!(said(&sheet, rt, start, allocation, &padded), Verdict::Padded(sent.len()));
                if let Some((_, less)) = sent.split_last() {
                    assert_eq!(said(&sheet, rt, start, allocation, less), Verdict::Short(less.len()));
                }
            }
        }
    }
}

#[test]
fn each_mistake_is_named() {
    let sheet = sheet();
    let all = ask(&sheet, 0, 0, 65535).1;
    let one = [0, 0, 0, 8, 0, 0, 0, 0x10, 1, 5, 1, 0];
    let with = |at: usize, byte: u8| {
        let mut changed = one;
        changed[at] = byte;
        changed
    };
    assert_eq!(
        said(&sheet, 0, 1, 65535, &ask(&sheet, 0, 2, 65535).1),
        Verdict::Wrong(3, Some(Mistake::OnlyAbove))
    );
    assert_eq!(
        said(&sheet, 0, 0, 12, &[0, 0, 0, 8, 0, 0, 0, 0x10, 0, 0, 3, 12]),
        Verdict::Wrong(3, Some(Mistake::LengthCut))
    );
    assert_eq!(
        said(&sheet, 0, 0x105, 65535, &with(3, all.len() as u8 - 4)),
        Verdict::Wrong(3, Some(Mistake::LengthOfAll))
    );
    assert_eq!(
        said(&sheet, 0, 0x105, 65535, &with(7, 0x12)),
        Verdict::Wrong(7, Some(Mistake::HighestCurrent))
    );
    assert_eq!(
        said(&sheet, 0, 0x105, 65535, &with(7, 0x14)),
        Verdict::Wrong(7, Some(Mistake::HighestListed))
    );
    assert_eq!(said(&sheet, 1, 0, 65535, &all), Verdict::Wrong(3, Some(Mistake::NotOnlyCurrent)));
    assert_eq!(said(&sheet, 2, 0, 65535, &all), Verdict::Wrong(3, Some(Mistake::NotOnlyOne)));
    assert_eq!(said(&sheet, 0, 0x105, 65535, &with(10, 3)), Verdict::Wrong(10, None));
    let longer: Vec<u8> = one.into_iter().chain([1]).collect();
    assert_eq!(said(&sheet, 0, 0x105, 65535, &longer), Verdict::Wrong(12, None));
}

#[test]
fn what_is_refused() {
    assert_eq!(said(&E, 3, 0, 65535, &[]), Verdict::Exact);
    assert_eq!(said(&E, 3, 0, 65535, &[0]), Verdict::Answered(COMMAND_RT));
    assert_eq!(judge(Rows, &E[..3], &command(0, 0, 8), &[], 65534).unwrap_err().number, 1);
    assert_eq!(judge(Rows, &E, &command(0, 0, 8), &[], 7).unwrap_err().number, BUFFER_SHORT);
    assert_eq!(judge(Rows, &E, &command(0, 0, 8), &[], 8).unwrap().0, Verdict::Short(0));
}
