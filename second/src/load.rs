//! A drive sheet as a medium leaves it.

use crate::numbers::*;
use crate::refusal::Refusal;
use crate::sheet::{build_in, Layout, ListedProfile, Meaning, Sheet};
use crate::wire::{Descriptor, Feature, Profile};

/// A medium: the features and the profiles that it makes current.
#[derive(Clone, Copy, Debug)]
pub struct Medium<'a> {
    pub features: &'a [Feature],
    pub profiles: &'a [Profile],
}

/// Writes the sheet with a medium in it, in the layout that it has; gives its length, which stays the same, or why it is refused.
pub fn load(layout: Layout, sheet: &[u8], medium: Medium, out: &mut [u8]) -> Result<usize, Refusal> {
    let Medium { features, profiles } = medium;
    let meaning = Sheet::accept(layout, sheet)?.meaning();
    if !ascends(features) || !ascends(profiles) {
        return Err(LIST_ORDER.into());
    }
    if !has_features(&meaning, features) || !has_profiles(&meaning, profiles) {
        return Err(SHEET_LACKS.into());
    }
    let room = out.get_mut(..sheet.len()).ok_or(LOADED_SHORT)?;
    let loaded = with(&meaning, medium);
    room.copy_from_slice(&build_in(layout, &loaded.profiles, &loaded.descriptors).unwrap_or_default());
    Ok(sheet.len())
}

/// Whether each number is above the one before.
fn ascends<T: PartialOrd>(list: &[T]) -> bool {
    list.windows(2).all(|pair| pair[0] < pair[1])
}

/// Whether the sheet's contents have each of these; they don't have feature 0.
fn has_features(meaning: &Meaning, features: &[Feature]) -> bool {
    let find = |feature: &Feature| meaning.descriptors.binary_search_by_key(feature, |own| own.feature);
    features.iter().all(|feature| find(feature).is_ok())
}

/// Whether the sheet lists each of these.
fn has_profiles(meaning: &Meaning, profiles: &[Profile]) -> bool {
    profiles.iter().all(|profile| meaning.profiles.iter().any(|own| own.number == *profile))
}

/// What the sheet says with the medium in it.
fn with<'a>(meaning: &Meaning<'a>, medium: Medium) -> Meaning<'a> {
    let profile = |own: &ListedProfile| ListedProfile {
        number: own.number,
        current: medium.profiles.binary_search(&own.number).is_ok(),
    };
    let descriptor = |own: &Descriptor<'a>| {
        let stays = own.flags & PERSISTENT != 0;
        let current = stays || medium.features.binary_search(&own.feature).is_ok();
        Descriptor { flags: own.flags & !CURRENT | u8::from(current), ..*own }
    };
    Meaning {
        profiles: meaning.profiles.iter().map(profile).collect(),
        descriptors: meaning.descriptors.iter().map(descriptor).collect(),
    }
}
