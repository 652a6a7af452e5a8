//! The judge of another box: what it sent for a command, held against what the paper's box sends from a sheet, and against boxes that get one thing wrong.

use crate::command::{most_bytes, Request, RT_ALL, RT_CURRENT, RT_ONE};
use crate::numbers::*;
use crate::refusal::Refusal;
use crate::sheet::{Layout, Meaning, Sheet};
use crate::wire::Feature;

/// Makes the enum of mistakes, numbered from 1 as the exported function tells them, and the list of all, in the order in which they are tried.
macro_rules! mistakes {
    ($first:ident $($later:ident)*) => {
        /// What a box got wrong.
        #[derive(Clone, Copy, Debug, PartialEq, Eq)]
        pub enum Mistake {
            $first = 1,
            $($later,)*
        }

        pub const MISTAKES: [Mistake; 7] = [Mistake::$first, $(Mistake::$later,)*];
    };
}

mistakes! { OnlyAbove LengthCut LengthOfAll HighestCurrent HighestListed NotOnlyCurrent NotOnlyOne }

/// What is said of a response.
#[derive(Clone, Copy, Debug, PartialEq, Eq)]
pub enum Verdict {
    Exact,
    /// So many right bytes, and zeros behind.
    Padded(usize),
    /// So many right bytes, and no more.
    Short(usize),
    /// The first byte that differs, and what explains it.
    Wrong(usize, Option<Mistake>),
    /// It is to be refused with this number, and was answered.
    Answered(u8),
}

/// The verdict, and what was due; or the refusal: the sheet's, or 12 for a scratch buffer of fewer bytes than any box may send.
pub fn judge(
    layout: Layout,
    sheet: &[u8],
    command: &[u8],
    response: &[u8],
    scratch: usize,
) -> Result<(Verdict, Option<Vec<u8>>), Refusal> {
    let meaning = Sheet::accept(layout, sheet)?.meaning();
    let request = match Request::parse(command) {
        Ok(request) => request,
        Err(_) if response.is_empty() => return Ok((Verdict::Exact, None)),
        Err(number) => return Ok((Verdict::Answered(number), None)),
    };
    if scratch < most_bytes(request.allocation) {
        return Err(BUFFER_SHORT.into());
    }
    let due = sent(&meaning, request, None);
    let verdict = match compare(&due, response) {
        Verdict::Wrong(at, _) => Verdict::Wrong(
            at,
            MISTAKES.into_iter().find(|&mistake| follows(&sent(&meaning, request, Some(mistake)), response)),
        ),
        verdict => verdict,
    };
    Ok((verdict, Some(due)))
}

/// A response where these bytes are due.
fn compare(due: &[u8], response: &[u8]) -> Verdict {
    if due == response {
        return Verdict::Exact;
    }
    if follows(due, response) {
        return Verdict::Padded(due.len());
    }
    if due.starts_with(response) {
        return Verdict::Short(response.len());
    }
    let at = due.iter().zip(response).take_while(|(a, b)| a == b).count();
    Verdict::Wrong(at, None)
}

/// These bytes, and zeros behind them or not.
fn follows(due: &[u8], response: &[u8]) -> bool {
    response.strip_prefix(due).is_some_and(|rest| rest.iter().all(|&byte| byte == 0))
}

/// What a box sends that makes this mistake, or none.
pub fn sent(meaning: &Meaning, request: Request, mistake: Option<Mistake>) -> Vec<u8> {
    let Request { rt, sfn, allocation } = request;
    let several = rt == RT_ALL || rt == RT_CURRENT;
    let (rt, sfn) = match mistake {
        Some(Mistake::OnlyAbove) if several && sfn.0 < u16::MAX => (rt, Feature(sfn.0 + 1)),
        Some(Mistake::NotOnlyCurrent) if rt == RT_CURRENT => (RT_ALL, sfn),
        Some(Mistake::NotOnlyOne) if rt == RT_ONE => (RT_ALL, sfn),
        _ => (rt, sfn),
    };
    let most = most_bytes(allocation);
    let descriptors = selected(meaning, rt, sfn);
    let data_length = match mistake {
        Some(Mistake::LengthCut) => (descriptors.len() + 4).min(most.saturating_sub(4)),
        Some(Mistake::LengthOfAll) => selected(meaning, RT_ALL, Feature(0)).len() + 4,
        _ => descriptors.len() + 4,
    };
    let numbers =
        |every: bool| meaning.profiles.iter().filter(move |p| every || p.current).map(|p| p.number.0);
    let profile = match mistake {
        Some(Mistake::HighestCurrent) => numbers(false).max(),
        Some(Mistake::HighestListed) => numbers(true).max(),
        _ => numbers(false).next(),
    };
    let mut bytes = (data_length as u32).to_be_bytes().to_vec();
    bytes.extend([0, 0]);
    bytes.extend(profile.unwrap_or(0).to_be_bytes());
    bytes.extend(descriptors);
    bytes.truncate(most);
    bytes
}

/// The descriptors that a request selects, feature 0 first.
fn selected(meaning: &Meaning, rt: u8, sfn: Feature) -> Vec<u8> {
    let wanted = |number: u16, current: bool| match rt {
        RT_ALL => number >= sfn.0,
        RT_CURRENT => number >= sfn.0 && current,
        _ => number == sfn.0,
    };
    let mut bytes = Vec::new();
    if wanted(0, true) {
        bytes.extend([0, 0, 3, 4 * meaning.profiles.len() as u8]);
        for profile in &meaning.profiles {
            bytes.extend(profile.number.0.to_be_bytes());
            bytes.extend([u8::from(profile.current), 0]);
        }
    }
    for descriptor in &meaning.descriptors {
        if wanted(descriptor.feature.0, descriptor.flags & 1 == 1) {
            bytes.extend(descriptor.feature.0.to_be_bytes());
            bytes.extend([descriptor.flags, descriptor.body.len() as u8]);
            bytes.extend(descriptor.body);
        }
    }
    bytes
}
