//! Lines of any length, and plans of so many bytes.

/// What a line of any length can look like: its start, the byte that fills it up, and its end.
pub type Form = (&'static str, u8, &'static str);

/// The first ones are readable, with a number that is too large; the others are not readable.
pub const FORMS: &[Form] = &[
    ("off 1", b'0', ""),
    ("on ", b'9', ""),
    ("miss ", b'1', ""),
    ("miss 1 2 3 ", b'7', ""),
    ("miss 1 ", b'3', " 4"),
    ("miss 2 1", b'0', ""),
    ("ok", b' ', ""),
    ("", b' ', "ok"),
    ("off 1", b'\r', ""),
    ("", b'\0', ""),
    ("lost", b'\n', ""),
];

/// A line of this length if it is not shorter than its form, and its line feed.
pub fn line(form: &Form, length: usize) -> Vec<u8> {
    let &(start, filling, end) = form;
    let mut line = start.as_bytes().to_vec();
    line.resize(length.saturating_sub(end.len()).max(start.len()), filling);
    line.extend(end.as_bytes());
    line.push(b'\n');
    line
}

/// The longest line that runs a slot: all 32 nodes miss it.
pub fn all_miss() -> Vec<u8> {
    let all: Vec<String> = (1..=32).map(|x| x.to_string()).collect();
    format!("miss {}\n", all.join(" ")).into_bytes()
}

/// The start of a plan, so many bytes long: line one and lines `ok` (3 bytes) and `lost` (5).
pub fn filled(length: usize) -> Vec<u8> {
    let mut text = b"32 2\n".to_vec();
    while !(length - text.len()).is_multiple_of(3) {
        text.extend(b"lost\n");
    }
    while text.len() < length {
        text.extend(b"ok\n");
    }
    text
}
