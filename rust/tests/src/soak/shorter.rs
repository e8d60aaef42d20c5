//! A shorter message that still shows a difference: fewer settings, fewer entries, shorter texts, and then fewer bytes of any kind.

use super::shrink::reduced;
use crate::settings_of;
use otap_reference::reference::message::{request_as, REQUEST_HEAD};
use otap_reference::reference::settings::Setting;
use otap_reference::reference::texts::{Coding, Text};

/// Says whether a message in place of the one that was sent still shows it.
pub type Differs<'a> = dyn FnMut(&[u8]) -> bool + 'a;

pub fn shortest(message: &[u8], differs: &mut Differs) -> Vec<u8> {
    let by_settings = fewer_settings(message, differs);
    fewer_bytes(by_settings, differs)
}

/// A request that is read whole: its settings less those that can go, and then less of each.
fn fewer_settings(message: &[u8], differs: &mut Differs) -> Vec<u8> {
    let Some((coding, settings)) = whole(message) else { return message.to_vec() };
    let written = |settings: &[Setting]| {
        let bytes = settings.iter().map(|setting| setting.write_as(coding));
        bytes.collect::<Option<Vec<_>>>().map(|settings| request_as(coding, &settings))
    };
    let mut tried = |some: &[Setting]| written(some).is_some_and(|message| differs(&message));
    if !tried(&settings) {
        // It is shown by something that another writing of it has not.
        return message.to_vec();
    }
    let mut settings = reduced(settings, &mut tried);
    for place in 0..settings.len() {
        let mut with = |setting: &Setting| {
            let mut some = settings.clone();
            some[place] = setting.clone();
            tried(&some)
        };
        settings[place] = less(&settings[place], &mut with);
    }
    written(&settings).expect("they were written before")
}

/// The settings of a request that has nothing but these, and the coding type that they are read by.
fn whole(message: &[u8]) -> Option<(Coding, Vec<Setting>)> {
    let coding = Coding::from_number(message.get(5)? & 0x0F)?;
    let settings = settings_of(message, coding);
    let read: usize = settings.iter().map(|(_, bytes)| bytes.len()).sum();
    let all = read > 0 && REQUEST_HEAD + read == message.len();
    all.then(|| (coding, settings.into_iter().map(|(setting, _)| setting).collect()))
}

/// A setting with fewer entries and shorter texts.
fn less(setting: &Setting, differs: &mut dyn FnMut(&Setting) -> bool) -> Setting {
    let mut best = setting.clone();
    let places: Vec<usize> = (0..entries(setting)).collect();
    if !places.is_empty() {
        let kept = reduced(places, &mut |kept| differs(&with_entries(setting, kept)));
        best = with_entries(setting, &kept);
    }
    for units in [0, 1, 4] {
        let shorter = with_texts(&best, units);
        if differs(&shorter) {
            return shorter;
        }
    }
    best
}

fn entries(setting: &Setting) -> usize {
    match setting {
        Setting::GroupContacts { entries, .. } => entries.len(),
        Setting::IndividualContacts { entries, .. } => entries.len(),
        Setting::Lines { entries, .. } => entries.len(),
        Setting::QuickTexts { entries, .. } | Setting::StatusTexts { entries, .. } => entries.len(),
        Setting::Channels { channels, .. } => channels.len(),
        _ => 0,
    }
}

/// With the entries at these places alone.
fn with_entries(setting: &Setting, kept: &[usize]) -> Setting {
    let mut fewer = setting.clone();
    match &mut fewer {
        Setting::GroupContacts { entries, .. } => keep(entries, kept),
        Setting::IndividualContacts { entries, .. } => keep(entries, kept),
        Setting::Lines { entries, .. } => keep(entries, kept),
        Setting::QuickTexts { entries, .. } => keep(entries, kept),
        Setting::StatusTexts { entries, .. } => keep(entries, kept),
        Setting::Channels { channels, .. } => keep(channels, kept),
        _ => {}
    }
    fewer
}

fn keep<T: Clone>(list: &mut Vec<T>, kept: &[usize]) {
    *list = kept.iter().map(|&place| list[place].clone()).collect();
}

/// With texts of at most so many units.
fn with_texts(setting: &Setting, units: usize) -> Setting {
    let mut shorter = setting.clone();
    let cut = |text: &mut Text| text.truncate(units);
    match &mut shorter {
        Setting::GroupContacts { entries, .. } => {
            entries.iter_mut().for_each(|one| cut(&mut one.text))
        }
        Setting::IndividualContacts { entries, .. } => {
            entries.iter_mut().for_each(|one| cut(&mut one.text))
        }
        Setting::Lines { entries, .. } => entries.iter_mut().for_each(|one| cut(&mut one.text)),
        Setting::QuickTexts { entries, .. } => {
            entries.iter_mut().for_each(|one| cut(&mut one.text))
        }
        Setting::StatusTexts { entries, .. } => {
            entries.iter_mut().for_each(|one| cut(&mut one.text))
        }
        Setting::Group { slot: Some(slot), .. } => cut(&mut slot.text),
        Setting::Individual { slot: Some(slot), .. } => cut(&mut slot.text),
        Setting::LineSlot { slot: Some(slot), .. } => cut(&mut slot.text),
        _ => {}
    }
    shorter
}

/// Any bytes less: with the length that the carrier then has to state, or with the one that it states, where a false one shows it.
fn fewer_bytes(message: Vec<u8>, differs: &mut Differs) -> Vec<u8> {
    let carried: fn(&[u8]) -> Vec<u8> =
        if differs(&restated(&message)) { restated } else { <[u8]>::to_vec };
    let bytes = reduced(message, &mut |bytes| differs(&carried(bytes)));
    carried(&bytes)
}

/// A stated length is made true; 0, which states none, stays.
fn restated(bytes: &[u8]) -> Vec<u8> {
    let mut message = bytes.to_vec();
    if message.len() >= 4 && message[2..4] != [0, 0] {
        let length = message.len() as u16 - 4;
        message[2..4].copy_from_slice(&length.to_be_bytes());
    }
    message
}
