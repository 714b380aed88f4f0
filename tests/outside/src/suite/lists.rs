//! Word lists shorter than the frame, as long and longer, each of the two for itself.

use crate::answers::Given;
use crate::compare;
use crate::draw::{any, good, size};
use crate::reference::table::frame_of;
use crate::run::{Outcome, Run};

pub fn nearby(run: &mut Run) -> Outcome {
    while run.more() {
        let size = size(&mut run.random);
        let table = good(&mut run.random, size);
        let frame = frame_of(&table).expect("a good table was drawn") as usize;
        let given = Given::from_table(&table);
        let lengths = [0, frame / 2, frame - 1, frame, frame + 1, frame + 40];
        for map in lengths {
            for pins in lengths {
                let judged = compare::judge(run, &given, (map, pins))?;
                run.tally(if judged.refusal.no == 8 { "refused 8" } else { "long enough" });
                if run.random.once_in(4) {
                    compare::ladder(run, &given, (map, pins))?;
                }
            }
        }
        let bad = any(&mut run.random);
        compare::judge(run, &bad, (frame, frame - 1))?;
        compare::ladder(run, &bad, (frame - 1, frame))?;
    }
    Ok(())
}
