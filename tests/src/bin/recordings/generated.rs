//! Texts of generated messages.

use super::compare::{compare, compare_with, FORMS};
use comparison::line_causes::{recorded_lines, recorded_met};
use comparison::messages::{all_yes, recorded_of};
use comparison::model::recorded_text::{line, Form};
use comparison::random::Random;
use comparison::recorded_lines::text;
use comparison::report::Count;

/// "Going there and back gives the bytes we began with": what the program prints one way comes back by the other.
pub fn there_and_back(count: &mut Count) -> Result<(), String> {
    let mut random = Random::new(81);
    for k in 2..=31 {
        let (mut two, mut three) = (Vec::new(), Vec::new());
        for _ in 0..2_000 {
            let (acks, return_bit) = (random.number() as u32 & all_yes(k), random.bit());
            let recorded = recorded_of(k, acks, return_bit);
            two.extend(line(k, &recorded));
            three.extend(line(k, &[&recorded[..], &[0, 0]].concat()));
        }
        compare_with(count, Form::Three, &two, &three)?;
        compare_with(count, Form::Two, &three, &two)?;
    }
    Ok(())
}

pub fn every_k(count: &mut Count) -> Result<(), String> {
    let mut random = Random::new(82);
    for form in FORMS {
        for k in 2..=31 {
            for lines in [1, 2, 3, 10, 100, 1_000] {
                let mut lines = text(&mut random, form, k, lines);
                compare(count, form, &lines)?;
                lines.pop();
                compare(count, form, &lines)?;
            }
        }
    }
    Ok(())
}

/// Line numbers of up to six digits.
pub fn long(count: &mut Count) -> Result<(), String> {
    let mut random = Random::new(83);
    for form in FORMS {
        compare(count, form, &text(&mut random, form, 17, 100_000))?;
    }
    Ok(())
}

/// Of the causes that apply to a line the first is told.
pub fn several_causes(count: &mut Count) -> Result<(), String> {
    let mut random = Random::new(89);
    for form in FORMS {
        let (mut text, mut printed) = (Vec::new(), Vec::new());
        for (number, (line, first)) in (1..).zip(recorded_lines(count, &mut random, form)) {
            text.extend(line);
            printed.extend(format!("line {number} refusal {first}\n").bytes());
        }
        compare_with(count, form, &text, &printed)?;
        recorded_met(count, form)?;
    }
    Ok(())
}
