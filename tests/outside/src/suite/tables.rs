//! Random tables of all shapes: check, judge at their depth, and the ladder over all depths.

use crate::answers::Given;
use crate::compare;
use crate::draw::{any, good, size, Size};
use crate::reference::table::frame_of;
use crate::run::{Outcome, Run};

pub fn random(run: &mut Run) -> Outcome {
    while run.more() {
        let size = size(&mut run.random);
        let table = good(&mut run.random, size);
        let given = Given::from_table(&table);
        compare::check(run, &given)?;
        let frame = frame_of(&table).expect("a good table was drawn") as usize;
        let longer = frame + run.random.below(9);
        let judged = compare::judge(run, &given, (longer, frame + 3))?;
        run.tally(if judged.t > 0 { "infeasible" } else { "undecided" });
        let ladder = compare::ladder(run, &given, (frame + 3, longer))?;
        if ladder.square[0] != ladder.square[7] {
            run.tally("ladders with a change after depth 1");
        }
        if ladder.square[1] != ladder.square[7] {
            run.tally("ladders with a change after depth 2");
        }
        if size == Size::Large {
            run.tally("frames over 256 drawn");
        }
        let any = any(&mut run.random);
        let checked = compare::check(run, &any)?;
        run.tally(if checked.refusal.no == 0 { "damaged and still good" } else { "damaged and refused" });
        compare::judge(run, &any, (4096, 4096))?;
    }
    Ok(())
}
