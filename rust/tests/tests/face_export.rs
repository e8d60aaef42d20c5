//! Exports and what they give to another set.

use otap::{Outcome, Part, REPLY_ROOM};
use otap_reference::inputs::Inputs;
use otap_tests::fitting::foreseen;
use otap_tests::for_both_sets;
use otap_tests::pair::{commit_judged, Pair};
use otap_tests::sets::Tried;

for_both_sets!(
    every_part_of_many_stores,
    the_ten_parts_give_the_same_tables,
    a_fresh_store_exports_to_itself,
);

fn every_part_of_many_stores<K: Tried>() {
    for seed in 2_000..2_060 {
        let mut inputs = Inputs::new(seed, K::LIMITS);
        let mut pair = Pair::<K>::fresh();
        for _ in 0..60 {
            pair.commit(&inputs.message());
            pair.compare_exports();
        }
    }
}

/// The ten parts give another store the same tables: then all its parts are the same. A used hand-held may stop, where the rules say.
fn the_ten_parts_give_the_same_tables<K: Tried>() {
    let mut used = Pair::<K>::fresh();
    for seed in 2_100..2_140 {
        let mut inputs = Inputs::new(seed, K::LIMITS);
        let mut pair = Pair::<K>::fresh();
        for _ in 0..40 {
            pair.commit(&inputs.message());
        }
        for other in [&mut used, &mut Pair::<K>::fresh()] {
            let stopped = foreseen(&pair.set, &other.set);
            let taken = stopped.map_or(Part::ALL.len(), |(part, ..)| part as usize - 1);
            for (place, &part) in Part::ALL.iter().enumerate().take(taken + 1) {
                let mut buffer = vec![0; K::LONGEST_MESSAGE];
                let store = pair.store();
                let message = store.export(part, &mut buffer).expect("a part of a store");
                assert_eq!(other.commit(message), if place < taken { 0 } else { 2 });
            }
            assert_eq!(other.set.tables == pair.set.tables, stopped.is_none());
            other.compare_exports();
            other.compare_rows();
        }
    }
}

fn a_fresh_store_exports_to_itself<K: Tried>() {
    let mut pair = Pair::<K>::fresh();
    let fresh = pair.bytes.clone();
    let mut buffer = vec![0; K::LONGEST_MESSAGE];
    for &part in Part::ALL {
        let mut store = pair.store();
        let message = store.export(part, &mut buffer).expect("a part of a store");
        let outcome = commit_judged(&mut store, message, &mut [0; REPLY_ROOM]).outcome;
        assert_eq!(outcome, Outcome::Taken);
    }
    assert!(pair.bytes == fresh);
}
