//! The inputs reach what the calls can say; and what is promised of a proposal holds of every one that they meet.

use super::*;
use crate::inputs::requests::texts;
use crate::inputs::Inputs;
use crate::reference::limits::{Limits, BOTH, HANDHELD};
use crate::reference::updating::{check_update, propose};
use std::collections::BTreeMap;

/// Sets as messages leave them, at times full of texts, each with a neighbour.
fn many_neighbours(limits: Limits, mut each: impl FnMut(&mut Random, &Set, &Set)) {
    for seed in 0..60 {
        let (mut inputs, mut random) = (Inputs::new(seed, limits), Random::new(!seed));
        let mut set = Set::fresh(limits);
        for turn in 0..30 {
            judge_and_commit(&inputs.message(), &mut set, &mut [0; REPLY_ROOM]);
            if turn % 3 == 0 {
                let message = texts::fill(&mut random, &set).bytes();
                judge_and_commit(&message, &mut set, &mut [0; REPLY_ROOM]);
            }
            let other = neighbour(&mut random, &set);
            each(&mut random, &set, &other);
        }
    }
}

/// Where the first takes it, the check says yes; a vehicle always does, and a hand-held but for the parts that go slot by slot.
#[test]
fn proposals() {
    for limits in BOTH {
        let (mut nineteen, mut parts) = (0, BTreeMap::<(u8, u8), usize>::new());
        many_neighbours(limits, |_, first, second| {
            let mut buffer = vec![0; limits.message];
            let Ok(length) = propose(Some(first), Some(second), &mut buffer) else {
                nineteen += 1;
                return;
            };
            let message = &buffer[..length];
            let part =
                (1..=PARTS).find(|&part| part_bytes(part, second).as_deref() == Some(message));
            let part = part.expect("it is a part of the second");
            let answer = judge_and_commit(message, &mut first.clone(), &mut [0; REPLY_ROOM]);
            let yes = check_update(Some(first), Some(second), message);
            assert_eq!(yes, Ok(answer.number == 0), "part {part}");
            assert!(yes == Ok(true) || limits == HANDHELD && SLOT_PARTS.contains(&part));
            *parts.entry((part, answer.number)).or_default() += 1;
        });
        println!("{nineteen} without a single part; {parts:?}");
        let refused: usize = SLOT_PARTS.iter().filter_map(|&part| parts.get(&(part, 2))).sum();
        assert!(nineteen > 100 && (1..=PARTS).all(|part| parts[&(part, 0)] > 20));
        assert_eq!(refused > 10, limits == HANDHELD, "{refused}");
    }
}

/// Messages that are an update and messages that are none, taken and refused.
#[test]
fn updates() {
    for limits in BOTH {
        let mut met = BTreeMap::<(bool, u8), usize>::new();
        many_neighbours(limits, |random, first, second| {
            let message = update(random, first, second);
            let mut updated = first.clone();
            let answer = judge_and_commit(&message, &mut updated, &mut [0; REPLY_ROOM]);
            let yes = check_update(Some(first), Some(second), &message).expect("both are sets");
            assert!(!yes || updated.tables == second.tables, "{message:02X?}");
            *met.entry((yes, answer.number)).or_default() += 1;
        });
        println!("{met:?}");
        assert!(met[&(true, 0)] > 500 && met[&(false, 0)] > 100);
        assert!([4, 5, 13].iter().all(|&number| met[&(false, number)] > 5));
    }
}
