//! The contenders must give the same answers and the same lists, on the measured tables and in a test on many others.

use crate::measure::{Contender, Lists};
use outside::answers::Given;

/// All contenders must give the same answers and the same lists.
pub fn agree(contenders: &[Contender], table: &Given, frame: usize) -> Result<(), String> {
    let outcome = |contender: &Contender| {
        let (mut one, mut two) = (Lists::new(frame + 8), Lists::new(frame + 8));
        let judged = (contender.judge)(table, &mut one.map, &mut one.pins);
        let ladder = (contender.ladder)(table, &mut two.map, &mut two.pins);
        (judged, ladder, one.map, one.pins, two.map, two.pins)
    };
    let first = outcome(&contenders[0]);
    for contender in &contenders[1..] {
        if outcome(contender) != first {
            return Err(format!("{} and {} differ on {table:?}", contenders[0].name, contender.name));
        }
    }
    Ok(())
}

#[cfg(test)]
mod tests {
    use super::*;
    use crate::{fast, literal};
    use outside::draw::{good, Size};
    use outside::random::Random;
    use outside::reference::{table::frame_of, Reference};
    use outside::subject::Subject;

    #[test]
    fn plain_rust_and_the_literal_algorithm_are_right() {
        let judge = |table: &Given, map: &mut [u32], pins: &mut [u32]| Reference.judge(table, map, pins);
        let ladder = |table: &Given, map: &mut [u32], pins: &mut [u32]| Reference.ladder(table, map, pins);
        let contenders = [
            Contender { name: "reference", judge, ladder, sample: 0.0 },
            Contender { name: "plain Rust", judge: fast::judge::<false>, ladder: fast::ladder::<false>, sample: 0.0 },
            Contender { name: "by windows", judge: fast::judge::<true>, ladder: fast::ladder::<true>, sample: 0.0 },
            Contender { name: "literal", judge: literal::judge, ladder: literal::ladder, sample: 0.0 },
        ];
        let mut random = Random::new(6);
        for k in 0..3_000 {
            let size = if k % 10 == 0 { Size::Middle } else { Size::Small };
            let table = good(&mut random, size);
            let frame = frame_of(&table).unwrap() as usize;
            agree(&contenders, &Given::from_table(&table), frame).unwrap();
        }
    }
}
