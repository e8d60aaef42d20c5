//! Pairs of requests that share no table (document 02, A13): no type of setting stands in both, and neither has an item FF.

use super::draft::Draft;
use super::joining::with_reserved;
use super::maker::TYPES;
use super::random::Random;
use super::requests::{any_size, maker, request};
use crate::reference::commit::{judge_and_commit, REPLY_ROOM};
use crate::reference::tables::Set;

/// The types whose tables have no texts.
pub const TEXTLESS: [u8; 4] = [0xCB, 0xCD, 0xCE, 0xCF];

/// Each of either coding type. At times one is made for the set as the other leaves it: for room that this one frees, or takes.
pub fn pair(random: &mut Random, set: &Set) -> [Draft; 2] {
    let [types, others] = sides(random);
    let one = of_types(random, set, &types);
    let mut after = set.clone();
    if random.flag() {
        judge_and_commit(&one.bytes(), &mut after, &mut [0; REPLY_ROOM]);
    }
    let other = of_types(random, &after, &others);
    if random.flag() {
        [one, other]
    } else {
        [other, one]
    }
}

/// Whether all its tables are without texts.
pub fn is_textless(draft: &Draft) -> bool {
    draft.settings.iter().all(|setting| TEXTLESS.contains(&setting[0]))
}

/// Every type on one side, none of them empty; at times one has types without texts alone.
fn sides(random: &mut Random) -> [Vec<u8>; 2] {
    let textless = random.percent(40);
    loop {
        let here = |kind: &u8| random.flag() && (!textless || TEXTLESS.contains(kind));
        let (types, others): (Vec<_>, Vec<_>) = TYPES.into_iter().partition(here);
        if !types.is_empty() && !others.is_empty() {
            return [types, others];
        }
    }
}

/// What a request as they come has of these types, or a few settings of them.
fn of_types(random: &mut Random, set: &Set, types: &[u8]) -> Draft {
    let mut draft = request(random, set);
    draft.settings.retain(|setting| types.contains(&setting[0]));
    while draft.settings.is_empty() {
        for _ in 0..random.pick(&[1, 1, 2, 4]) {
            let (kind, size) = (random.pick(types), any_size(random));
            draft.push_if_room(maker(random, set, &draft).of_type(kind, size));
        }
    }
    with_reserved(random, draft)
}
