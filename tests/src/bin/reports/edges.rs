//! Lines about as long as a line may be, lines and partings that lie across the end of the program's buffer, lines with
//! several causes of refusal, and files in pieces.

use super::compare::{compare, compare_in_pieces, compare_with};
use comparison::adversary::Adversary;
use comparison::drawn_plans::any_k;
use comparison::line_causes::{below_limit_met, later_lines, lines_one};
use comparison::plan_files::{any_plan, parted};
use comparison::plan_lines::{all_miss, filled, line, Form, FORMS};
use comparison::random::Random;
use comparison::report::Count;

/// Lines of any length that have to do with `next`; one that is filled with line feeds is many lines.
const NEXTS: &[Form] = &[
    ("next", b' ', ""),
    ("", b' ', "next"),
    ("", b'x', "next"),
    ("next", b't', ""),
    ("next", b'\0', ""),
    ("next", b'\n', ""),
    ("", b'\n', "next"),
    ("4 2", b'2', ""),
];

/// Every form with lengths from 0 to 130 and some that are much longer: in a plan that runs, in one that is refused, as
/// the only line and as the last.
pub fn lengths(count: &mut Count) -> Result<(), String> {
    for length in (0..=130).chain([240, 241, 4_095, 4_096, 4_097, 8_192, 70_000]) {
        for form in FORMS.iter().chain(NEXTS) {
            let line = line(form, length);
            let parts: [&[u8]; 8] = [
                b"4 2\nok\n",
                &line,
                b"ok\nnext\n4 2\noff 9\n",
                &line,
                b"ok\nnext\n",
                &line,
                b"next\n5 2\nok\nnext\n4 2\nok\n",
                &line,
            ];
            compare(count, &parts.concat())?;
        }
    }
    Ok(())
}

/// So many bytes of a plan that runs, or of one that is refused.
fn begun(length: usize, refused: bool) -> Vec<u8> {
    let mut text = filled(length);
    if refused {
        text[0] = b'4';
    }
    text
}

/// Lines of several lengths that begin up to 125 bytes before the end of the first or the second 4,096 bytes. The plans
/// after it show that it was read to its end and no further.
pub fn buffer(count: &mut Count) -> Result<(), String> {
    let lines =
        [b"next\n".to_vec(), b"next \n".to_vec(), all_miss(), line(&FORMS[0], 120), line(&FORMS[0], 121)];
    for before in 0..=125 {
        let end = if before % 4 == 0 { 2 * 4_096 } else { 4_096 };
        for line in &lines {
            for refused in [false, true] {
                let text =
                    [&begun(end - before, refused)[..], line, b"lost\nok\nnext\n3 2\nok\nok\n"].concat();
                compare(count, &text)?;
            }
        }
    }
    Ok(())
}

/// A line too long whose last bytes, from about the start of a new buffer on, read `next`.
pub fn tails(count: &mut Count) -> Result<(), String> {
    for start in ["4 2\nok\n", "4 2\noff 9\n", ""] {
        for end in [4_096, 8_192] {
            for length in end - 6..=end + 6 {
                let mut text = start.as_bytes().to_vec();
                text.resize(length, b'x');
                text.extend(b"next\n4 2\nok\nnext\n4 2\nok\n");
                compare(count, &text)?;
            }
        }
    }
    Ok(())
}

/// Files that end up to six bytes from the end of a buffer, with or without their last line feed, some with `next`.
pub fn ends(count: &mut Count) -> Result<(), String> {
    for length in (4_090..=4_102).chain(8_186..=8_198) {
        for refused in [false, true] {
            for last in [&b""[..], b"\n", b"next\n", b"next\nnext\n", b"next\n4 2\n"] {
                let text = [&begun(length - last.len(), refused)[..], last].concat();
                compare(count, &text)?;
                compare(count, &text[..length - 1])?;
            }
        }
    }
    Ok(())
}

/// The file comes in pieces, so that a read gives less than the buffer holds.
pub fn pieces(count: &mut Count) -> Result<(), String> {
    let mut adversary = Adversary::new(95);
    for i in 0..300 {
        let mut plans = Vec::new();
        for _ in 0..adversary.random.within(2, 5) {
            let n = adversary.random.within(3, 32) as u32;
            let k = any_k(&mut adversary.random, n);
            plans.push(any_plan(count, &mut adversary, n, k, 1));
        }
        compare_in_pieces(count, &parted(&plans), [1, 2, 3, 5, 7, 64, 100][i % 7])?;
    }
    let plans = [filled(40_001), filled(5_003), begun(9_001, true), filled(4_099)];
    for piece in [4_095, 4_096, 1_000] {
        compare_in_pieces(count, &parted(&plans), piece)?;
    }
    Ok(())
}

/// Of the causes that apply to a line the first is told: line one and the line after it, of every n, each in a plan.
pub fn several_causes(count: &mut Count) -> Result<(), String> {
    let mut random = Random::new(96);
    let one = |(line, first)| (line, 1, first);
    let mut plans: Vec<(Vec<u8>, u32, u32)> = lines_one(count, &mut random).into_iter().map(one).collect();
    for n in 3..=32 {
        let later =
            |(line, first): (Vec<u8>, u32)| (format!("{n} 2\n").bytes().chain(line).collect(), 2, first);
        plans.extend(later_lines(count, &mut random, n, false).into_iter().map(later));
    }
    let mut printed = String::new();
    for (plan, (_, line, first)) in (1..).zip(&plans) {
        printed += &format!("plan {plan} line {line} refusal {first}\n");
    }
    printed += "total 0 0 0 0\n";
    let texts: Vec<Vec<u8>> = plans.into_iter().map(|plan| plan.0).collect();
    compare_with(count, &parted(&texts), printed.as_bytes())?;
    below_limit_met(count)
}
