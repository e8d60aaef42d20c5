//! The inputs do what they say: what may be joined is, what is wrong is refused as foreseen, and every kind comes up.

use super::*;
use crate::inputs::Inputs;
use crate::reference::joining::{join, Joined};
use crate::reference::limits::{Limits, BOTH};
use std::collections::{BTreeMap, BTreeSet};

const SEEDS: u64 = 300;

/// What the call answers, and that it is what was foreseen.
fn answered(input: &JoinInput, limits: Limits) -> Joined {
    let JoinInput { first, second, answer } = input;
    let joined = join(first, second, limits, &mut vec![0; limits.message]);
    let foreseen = answer.unwrap_or(joined.map(|_| ()));
    assert_eq!(joined.map(|_| ()), foreseen, "{first:02X?} {second:02X?}");
    joined
}

/// One header, then the settings as they were drafted.
#[test]
fn good_pairs_are_joined() {
    BOTH.into_iter().for_each(good_pairs_are_joined_of);
}

fn good_pairs_are_joined_of(limits: Limits) {
    let (mut most, mut longest, mut codings) = (0, 0, BTreeSet::new());
    for seed in 0..SEEDS {
        let pair = good_pair(&mut Random::new(seed), &Set::fresh(limits));
        let [first, second] = [0, 1].map(|place| pair[place].bytes());
        let mut buffer = vec![0xEE; limits.message];
        let length = join(&first, &second, limits, &mut buffer).expect("they may be joined");
        let settings = [&pair[0].settings[..], &pair[1].settings].concat();
        assert_eq!(buffer[..4], [2, 2, ((length - 4) >> 8) as u8, (length - 4) as u8]);
        assert_eq!(buffer[4..8], [8, pair[0].coding.number(), 8, settings.len() as u8]);
        assert_eq!(buffer[8..length], settings.concat());
        assert!(buffer[length..].iter().all(|&byte| byte == 0xEE));
        most += usize::from(settings.len() == MOST_SETTINGS);
        longest += usize::from(length == limits.message);
        codings.insert(pair[0].coding_byte);
    }
    assert!(most > 10 && longest > 10 && codings.len() > 10, "{most} {longest} {codings:?}");
}

#[test]
fn every_wrong_pair_is_refused() {
    BOTH.into_iter().for_each(every_wrong_pair_is_refused_of);
}

fn every_wrong_pair_is_refused_of(limits: Limits) {
    for wrong in Wrong::ALL {
        let mut met = BTreeSet::new();
        for seed in 0..SEEDS {
            let input = wrong_pair(&mut Random::new(seed), &Set::fresh(limits), wrong);
            let refused = answered(&input, limits).expect_err("one thing is wrong");
            met.insert((refused.number, refused.second));
        }
        let of_one = !matches!(wrong, Wrong::TwoCodings | Wrong::TooMany | Wrong::TooLong);
        assert_eq!(met.len(), 1 + usize::from(of_one), "{wrong:?}: {met:?}");
    }
}

/// Every number that the requests can get comes up, of the first and of the second, and many places.
#[test]
fn inputs_of_every_kind() {
    BOTH.into_iter().for_each(inputs_of_every_kind_of);
}

fn inputs_of_every_kind_of(limits: Limits) {
    let mut met: BTreeMap<(u8, bool), usize> = BTreeMap::new();
    let (mut places, mut unforeseen) = (BTreeSet::new(), 0);
    for seed in 0..60 {
        let mut inputs = Inputs::new(seed, limits);
        for _ in 0..20 {
            inputs.message();
            let input = inputs.join();
            let joined = answered(&input, limits);
            unforeseen += usize::from(input.answer.is_none() && joined.is_ok());
            let (number, second) = joined.map_or_else(|no| (no.number, no.second), |_| (0, false));
            places.extend(joined.err().map(|no| no.failed));
            *met.entry((number, second)).or_insert(0) += 1;
        }
    }
    println!("{met:?}, {unforeseen} changed and still joined");
    let of = |number| [(number, false), (number, true)];
    let kinds = [vec![(0, false)], [1, 3, 4, 12, 13, 14].map(of).concat()].concat();
    assert_eq!(met.keys().copied().collect::<Vec<_>>(), kinds);
    assert!(met[&(0, false)] > 400 && unforeseen > 20 && places.len() > 10, "{places:?}");
}
