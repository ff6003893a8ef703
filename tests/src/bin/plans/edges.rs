//! Lines about as long as a line may be, lines that lie across the end of the program's buffer, and lines with several
//! causes of refusal.

use super::compare::{compare, compare_in_pieces, compare_with};
use comparison::adversary::Adversary;
use comparison::drawn_plans::{any_k, plan};
use comparison::line_causes::{below_limit_met, later_lines, lines_one};
use comparison::plan_lines::{all_miss, filled, line, FORMS};
use comparison::random::Random;
use comparison::report::Count;

/// Every form with lengths from 0 to 130 and some that are much longer; line one too.
pub fn lengths(count: &mut Count) -> Result<(), String> {
    for length in (0..=130).chain([240, 241, 4_095, 4_096, 4_097, 8_192, 70_000]) {
        for form in FORMS {
            let text = [&b"4 2\nok\n"[..], &line(form, length), b"ok\n"].concat();
            compare(count, &text)?;
        }
        for form in [("4 2", b'2', ""), ("1", b'4', " 2"), ("4 2", b' ', ""), ("", b'0', "4 2")] {
            let text = [&line(&form, length)[..], b"ok\n"].concat();
            compare(count, &text)?;
        }
    }
    Ok(())
}

/// Lines of several lengths that begin up to 125 bytes before the end of the first or the second 4,096
/// bytes. Where the line fits, the slot after it shows that it was read to its end and no further.
pub fn buffer(count: &mut Count) -> Result<(), String> {
    let lines = [all_miss(), b"off 7\n".to_vec(), line(&FORMS[0], 120), line(&FORMS[0], 121)];
    for before in 0..=125 {
        let end = if before % 4 == 0 { 2 * 4_096 } else { 4_096 };
        for line in &lines {
            let text = [&filled(end - before)[..], line, b"ok\nlost\nok\n"].concat();
            compare(count, &text)?;
        }
    }
    Ok(())
}

/// Plans that end, with or without their last line feed, up to three bytes from the end of a buffer.
pub fn ends(count: &mut Count) -> Result<(), String> {
    for end in [4_096, 8_192] {
        for length in end - 3..=end + 3 {
            let text = filled(length);
            compare(count, &text)?;
            compare(count, &text[..length - 1])?;
        }
    }
    Ok(())
}

/// The plan comes in pieces, so that a read gives less than the buffer holds.
pub fn pieces(count: &mut Count) -> Result<(), String> {
    let mut adversary = Adversary::new(61);
    for i in 0..300 {
        let n = 3 + i % 30;
        let k = any_k(&mut adversary.random, n);
        let text = plan(count, &mut adversary, n, k, 100).text;
        let piece = [1, 2, 3, 5, 7, 64, 100][i as usize % 7];
        compare_in_pieces(count, &text, piece)?;
    }
    for piece in [4_095, 4_096, 1_000] {
        compare_in_pieces(count, &filled(40_001), piece)?;
    }
    Ok(())
}

/// Of the causes that apply to a line the first is told: line one and the line after it, of every n.
pub fn several_causes(count: &mut Count) -> Result<(), String> {
    let mut random = Random::new(62);
    for (line, first) in lines_one(count, &mut random) {
        let printed = format!("line 1 refusal {first}\n");
        compare_with(count, &[&line[..], b"ok\n"].concat(), printed.as_bytes())?;
    }
    for n in 3..=32 {
        for (line, first) in later_lines(count, &mut random, n, false) {
            let text = [format!("{n} 2\n").as_bytes(), &line, b"ok\n"].concat();
            compare_with(count, &text, format!("line 2 refusal {first}\n").as_bytes())?;
        }
    }
    below_limit_met(count)
}
