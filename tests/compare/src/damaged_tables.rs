//! Damaged tables in both: the same number with the same pair, and no lent word changed.

use crate::beside::{Beside, number_of};
use crate::calls::compare_tables;
use crate::damage;
use crate::events::{any_event, planted_event};
use crate::planted;
use crate::random::Random;
use crate::tally::Tally;
use reference::tables;

/// Damages the tables of one plot in several ways, each from the sound ones.
pub fn damaged_tables(seed: u64, tally: &mut Tally) {
    let mut random = Random::new(seed);
    let n = random.between(1, 16);
    let sound = if random.chance(20) {
        Beside::fresh(n, &mut random)
    } else {
        Beside::planted(planted::sound_plot(n, &mut random))
    };
    for turn in 0..25 {
        let mut lent = sound.tables.clone();
        let times_alone = turn % 5 == 0;
        for _ in 0..random.between(1, 3) {
            if times_alone || random.chance(10) {
                damage::damage_times(&sound.plot, &mut lent, &mut random);
            } else {
                damage::damage_tables(n, &mut lent, &mut random);
            }
        }
        if times_alone {
            let checked = tables::check(n, &lent.nodes, &lent.channels);
            tally.note(format!("times alone: {}", number_of(&checked)));
        }
        let event = if random.chance(50) {
            planted_event(&sound.plot, &mut random)
        } else {
            any_event(n, &mut random)
        };
        compare_tables(n, event, &lent, &mut random, tally);
    }
}
