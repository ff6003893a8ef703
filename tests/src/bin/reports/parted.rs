//! Lines that part plans, and lines that nearly do.

use super::compare::compare;
use comparison::report::Count;

/// Lines of short files.
const LINES: [&str; 5] = ["3 2", "ok", "next", "next ", ""];

/// All files of up to five of these lines, with and without the last line feed.
pub fn short_files(count: &mut Count) -> Result<(), String> {
    let mut files = vec![Vec::new()];
    for _ in 0..=5 {
        for file in &files {
            compare(count, file)?;
            compare(count, file.strip_suffix(b"\n").unwrap_or(file))?;
        }
        let with = |file: &Vec<u8>| LINES.map(|line| [file, line.as_bytes(), b"\n"].concat());
        files = files.iter().flat_map(with).collect();
    }
    count.needs(&["file: every plan refused", "file: no plan refused", "file: some plans refused"])
}

const WORDS: &[&[u8]] = &[
    b"next",
    b"Next",
    b"nexT",
    b"NEXT",
    b" next",
    b"next ",
    b"  next  ",
    b"next 1",
    b"next next",
    b"nextnext",
    b"nexts",
    b"anext",
    b"nex",
    b"ext",
    b"ne xt",
    b"n",
    b"nxet",
    b"next\r",
    b"\rnext",
    b"next\t",
    b"\tnext",
    b"next\0",
    b"\0next",
    b"ne\0xt",
    b"\xef\xbb\xbfnext",
    b"next\xff",
    b"next.",
    b"plan",
    b"total",
    b"next\n",
    b"next\nnext",
    b"next\n\nnext",
    b"next\n ",
    b"next\n4 2",
];

/// What stands before a word and after it: at the start of a file, after line one, after a slot, in a plan that is
/// refused, between two others, at the end; a plan after it shows whether it was parted.
const PLACES: &[(&str, &str)] = &[
    ("", "\n4 2\nok\nok\n"),
    ("4 2\n", "\n5 2\nok\n"),
    ("4 2\nok\n", "\n5 2\nok\nnext\n6 2\nok\n"),
    ("4 2\noff 1\nlost\n", "\n5 3\nok\nmiss 1 2\n"),
    ("4 2\nok\noff 9\nok\n", "\n5 2\nok\n"),
    ("9 9\n", "\n5 2\nok\nnext\n3 2\n"),
    ("4 2\nok\nnext\n", "\nnext\n5 2\nok\n"),
    ("4 2\nok\n", "\n"),
    ("4 2\nok\n", ""),
    ("4 2\nok\nnext\n", ""),
    ("4 2\noff 9\n", ""),
    ("", ""),
];

/// Each word in each place.
pub fn words(count: &mut Count) -> Result<(), String> {
    for word in WORDS {
        for (before, after) in PLACES {
            compare(count, &[before.as_bytes(), word, after.as_bytes()].concat())?;
        }
    }
    Ok(())
}

/// Each byte of a line `next`, its line feed too, changed to every value: between plans, and after a refused line.
pub fn bytes(count: &mut Count) -> Result<(), String> {
    for before in ["3 2\nok\n", "3 2\noff 4\n"] {
        for place in 0..5 {
            let mut text = Vec::new();
            for value in 0..=255 {
                let mut line = *b"next\n";
                line[place] = value;
                text.extend([before.as_bytes(), &line, b"4 2\nok\nok\nnext\n"].concat());
            }
            compare(count, &text)?;
        }
    }
    Ok(())
}
