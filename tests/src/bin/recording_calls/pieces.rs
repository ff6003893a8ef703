//! Texts cut into pieces of every size, and buffers of every length about those that are needed.

use super::protocol::{compare, Command};
use comparison::lent::{Call, CALLS, LINES, PIECE};
use comparison::line_causes::{recorded_lines, recorded_met};
use comparison::model::pieces::LINE;
use comparison::model::recorded_pieces::Recording;
use comparison::random::Random;
use comparison::recorded_lines::{damage, text, DAMAGES, FORMS};
use comparison::report::Count;

/// Texts of every k and both forms, half of them damaged, in pieces of up to 250 bytes.
pub fn drawn(count: &mut Count) -> Result<(), String> {
    let mut random = Random::new(86);
    let mut commands = Vec::new();
    for i in 0..600 {
        let form = FORMS[i % 2];
        let lines = random.below(40);
        let mut text = text(&mut random, form, 2 + (i / 2) as u32 % 30, lines);
        for _ in 0..random.below(6).saturating_sub(2) {
            damage(count, &mut random, &mut text);
        }
        let most = [1, 2, 3, 7, 40, PIECE][i / 2 % 6];
        commands.push(Command::New(form));
        commands.extend(LINES.cut(&mut random, &text, most).into_iter().map(Command::Call));
    }
    compare(count, &commands)?;
    count.needs(CALLS)?;
    count.needs(DAMAGES)
}

/// Short texts in two pieces, cut at every place.
pub fn every_cut(count: &mut Count) -> Result<(), String> {
    let mut commands = Vec::new();
    let long = [&b"2"[..], &b" 00".repeat(40), b"\n2 02 03 01 00\n"].concat();
    for text in [
        &b""[..],
        b"2 02 03 01 00\n9 09 FF 01 01 01\n",
        b"2 02 03 01 00 00 00\n9 09 FF 01 01 01 00 00\n",
        b"2 02 07 01 00\n2 02 03 02 00\n\n2 02 03 01 00",
        b"2 02 03 01 00 03 07\n2 02 03 01 00 09 00\n2 02 03 01 00 00 01\n",
        b"31 1F FF FF FF 7F 01 01\n31 1F FF FF FF 7F 01 01 00 00\n",
        &long,
    ] {
        for at in 0..=text.len() {
            for form in FORMS {
                commands.push(Command::New(form));
                commands.extend(LINES.cut_at(text, at).map(Command::Call));
            }
        }
    }
    compare(count, &commands)
}

/// Pieces of every length: a refused call, and the same with just enough room. The end is then asked for so, too.
pub fn rooms(count: &mut Count) -> Result<(), String> {
    let mut random = Random::new(87);
    let mut commands = Vec::new();
    for length in 1..=PIECE {
        for form in FORMS {
            let mut piece = text(&mut random, form, 2 + length as u32 % 30, 20);
            piece.truncate(length);
            let room = LINE * piece.len();
            commands.push(Command::New(form));
            commands.push(Command::Call(Call::Feed(piece.clone(), room - 1)));
            commands.push(Command::Call(Call::Feed(piece, room)));
            commands.extend([LINE - 1, LINE].map(|room| Command::Call(Call::Finish(room))));
        }
    }
    compare(count, &commands)
}

/// Of the causes that apply to a line the first is told; a line in one piece.
pub fn several_causes(count: &mut Count) -> Result<(), String> {
    let mut random = Random::new(90);
    let mut commands = Vec::new();
    for form in FORMS {
        commands.push(Command::New(form));
        let mut recording = Recording::new(form);
        for (number, (line, first)) in (1..).zip(recorded_lines(count, &mut random, form)) {
            let room = LINE * line.len();
            let expected = format!("line {number} refusal {first}\n").into_bytes();
            let printed = recording.feed(&line, room);
            count.check(printed == Ok(expected), || {
                format!("'{}': {printed:X?} by the model, not {first}", line.escape_ascii())
            })?;
            commands.push(Command::Call(Call::Feed(line, room)));
        }
        recorded_met(count, form)?;
    }
    compare(count, &commands)
}
