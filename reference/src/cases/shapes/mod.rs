//! Texts of the shapes that a planner may read in a way of their own: more records than its rows have room for, tags of many attributes,
//! and elements of text only that are nearly plain.

mod leaves;
mod rows;
mod tags;

use crate::answer::Case;
use crate::random::Random;

/// A case of one of these shapes.
pub fn case(random: &mut Random) -> Case {
    match random.below(100) {
        0..=26 => rows::case(random),
        27..=72 => tags::case(random),
        _ => leaves::case(random),
    }
}

/// A room that most such texts fit.
fn usual_room(random: &mut Random) -> u64 {
    random.pick(&[0, 400, 400, 800])
}
