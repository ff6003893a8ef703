//! Files of plans with what they print, worked out by hand from request m and the listings of document 01 and requests
//! e and f; and the sample files.

use super::compare::compare_with;
use comparison::printed;
use comparison::report::Count;

/// The lines of a file, parted by "; ", and those that it prints.
type Vector = (&'static str, &'static [&'static str]);

#[rustfmt::skip]
const EXAMPLES: &[Vector] = &[
    // The listing of document 01. Node 2 leaves in slot 4: members and listed nodes are 4 + 4 + 4 + 3.
    ("4 2; ok; lost; ok; ok", &["plan 1 4 15 15 0", "total 4 15 15 0"]),
    // Two failures: after slot 4 node 2 is out, node 1 lists all four and node 3 does not.
    ("4 2; ok; miss 3; ok; lost", &["plan 1 4 15 16 1", "total 4 15 16 1"]),
    // Both sponsors of node 1 miss it. After slot 3 it is out; 2 is the lowest-numbered member and lists three, 4 lists four.
    ("4 2; miss 2 3; ok; ok", &["plan 1 3 11 11 1", "total 3 11 11 1"]),
    // Node 3 alone drops node 1 in slot 3, and nobody leaves: three slots with a distance.
    ("4 2; miss 3; miss 3; ok; ok; ok", &["plan 1 5 20 20 3", "total 5 20 20 3"]),
    // Node 3 alone drops node 1 in slot 3 and node 2 in slot 4: distances 1 and 2 are two slots.
    ("6 2; miss 3; miss 3; ok; miss 3", &["plan 1 4 24 24 2", "total 4 24 24 2"]),
    // Request f: 3 and 4 are members. Node 3 lists four after slots 1 to 3 and two after the other five.
    ("4 3; off 1; off 2; ok; ok; ok; ok; ok; ok; ok; ok", &["plan 1 8 16 22 0", "total 8 16 22 0"]),
    // Request e: 1 and 4 are members. Node 1 lists 6 + 6 + 6 + 5 + 4 + 4 + 3 + 3 + 3 + 2 + 2 + 2 + 2.
    ("6 2; off 2; off 3; off 5; off 6; ok; ok; ok; ok; ok; ok; ok; ok; ok; ok; ok; ok; ok", &["plan 1 13 26 48 0", "total 13 26 48 0"]),
    // Node 3 is off after slot 1, off the lists after slot 5, listens, follows, knocks in slot 15 and joins in slot 18: members
    // 4 + 16 * 3 + 8 * 4, listed 4 * 4 + 13 * 3 + 8 * 4.
    ("4 2; ok; off 3; ok; ok; ok; ok; on 3; ok; ok; ok; ok; ok; ok; ok; ok; ok; ok; ok; ok; ok; ok; ok; ok; ok; ok; ok; ok", &[
        "plan 1 25 84 87 0", "total 25 84 87 0",
    ]),
    // "0 if there is none": two members and a list of three after slot 1, then nobody.
    ("3 2; off 1; lost; off 2; off 3; lost; ok", &["plan 1 3 2 3 0", "total 3 2 3 0"]),
    ("3 2; off 1; off 2; off 3; ok; lost", &["plan 1 2 0 0 0", "total 2 0 0 0"]),
    // Node 3 leaves in slot 2, the others in slot 3: members 3 + 2, listed 3 + 3.
    ("3 2; lost; lost; lost; ok", &["plan 1 4 5 6 0", "total 4 5 6 0"]),
    // A switched-off node is no member, and still listed.
    ("3 2; ok; off 3; ok", &["plan 1 2 5 6 0", "total 2 5 6 0"]),
    // No slots: nothing to add up.
    ("4 2", &["plan 1 0 0 0 0", "total 0 0 0 0"]),
    ("4 2; off 1; on 1", &["plan 1 0 0 0 0", "total 0 0 0 0"]),
    ("32 31; ok", &["plan 1 1 32 32 0", "total 1 32 32 0"]),
    // Several plans; each begins with a table of its own and with slot 1.
    ("4 2; off 1; ok; next; 4 2; ok", &["plan 1 1 3 4 0", "plan 2 1 4 4 0", "total 2 7 8 0"]),
    ("32 2; ok; next; 3 2; ok; ok; next; 5 4; ok", &[
        "plan 1 1 32 32 0", "plan 2 2 6 6 0", "plan 3 1 5 5 0", "total 4 43 43 0",
    ]),
    ("4 2; ok; lost; ok; ok; next; 4 2; ok; miss 3; ok; lost; next; 4 3; off 1; off 2; ok; ok; ok; ok; ok; ok; ok; ok", &[
        "plan 1 4 15 15 0", "plan 2 4 15 16 1", "plan 3 8 16 22 0", "total 16 46 53 1",
    ]),
    ("4 2; lost; ok; ok; next; 4 2; ok; lost; ok; ok", &["plan 1 3 11 11 0", "plan 2 4 15 15 0", "total 7 26 26 0"]),
    ("3 2; next; 3 2; ok; next; 3 2; next; 3 2; next; 3 2; next; 3 2; next; 3 2; next; 3 2; next; 3 2; next; 4 2; ok; next; 3 2", &[
        "plan 1 0 0 0 0", "plan 2 1 3 3 0", "plan 3 0 0 0 0", "plan 4 0 0 0 0", "plan 5 0 0 0 0", "plan 6 0 0 0 0",
        "plan 7 0 0 0 0", "plan 8 0 0 0 0", "plan 9 0 0 0 0", "plan 10 1 4 4 0", "plan 11 0 0 0 0", "total 2 7 7 0",
    ]),
];

/// A file as it stands, and what it prints.
type File = (&'static str, &'static str);

#[rustfmt::skip]
const REFUSED: &[File] = &[
    // "A refused plan .. is left out of the total, and reading goes on at the next `next`."
    ("4 2\nok\nnext\n3 2\nok\noff 9\nok\nok\nnext\n3 2\nok\nok\n", "plan 1 1 4 4 0\nplan 2 line 3 refusal 3\nplan 3 2 6 6 0\ntotal 3 10 10 0\n"),
    ("2 2\nok\nnext\n4 2\nok\n", "plan 1 line 1 refusal 1\nplan 2 1 4 4 0\ntotal 1 4 4 0\n"),
    ("33 2\nnext\n4 2\nok\n", "plan 1 line 1 refusal 1\nplan 2 1 4 4 0\ntotal 1 4 4 0\n"),
    ("4 4\n4 2\nok\nnext\n4 2\nok\n", "plan 1 line 1 refusal 2\nplan 2 1 4 4 0\ntotal 1 4 4 0\n"),
    ("4 2\nok\non 3\nok\nnext\n4 2\nok\n", "plan 1 line 3 refusal 11\nplan 2 1 4 4 0\ntotal 1 4 4 0\n"),
    ("4 2\nmiss 2 1\nnext\n4 2\nok\n", "plan 1 line 2 refusal 12\nplan 2 1 4 4 0\ntotal 1 4 4 0\n"),
    ("4 2\nok\nnext\n4 2\nok\nok\nok\noff 0\n", "plan 1 1 4 4 0\nplan 2 line 5 refusal 3\ntotal 1 4 4 0\n"),
    ("4 2\noff 5\nnext\n4 2\non 5\nnext\n4 2\nmiss 5\n", "plan 1 line 2 refusal 3\nplan 2 line 2 refusal 3\nplan 3 line 2 refusal 3\ntotal 0 0 0 0\n"),
    // The first refusal of a plan is told, and no other.
    ("4 2\noff 5\non 1\n\n9 9\nnext\n4 2\nok\n", "plan 1 line 2 refusal 3\nplan 2 1 4 4 0\ntotal 1 4 4 0\n"),
    // "A plan without lines, also after a last `next`, is refused with 12 in line 1."
    ("", "plan 1 line 1 refusal 12\ntotal 0 0 0 0\n"),
    ("next\n", "plan 1 line 1 refusal 12\nplan 2 line 1 refusal 12\ntotal 0 0 0 0\n"),
    ("next\nnext\n", "plan 1 line 1 refusal 12\nplan 2 line 1 refusal 12\nplan 3 line 1 refusal 12\ntotal 0 0 0 0\n"),
    ("next\n4 2\nok\n", "plan 1 line 1 refusal 12\nplan 2 1 4 4 0\ntotal 1 4 4 0\n"),
    ("4 2\nok\nnext\n", "plan 1 1 4 4 0\nplan 2 line 1 refusal 12\ntotal 1 4 4 0\n"),
    ("4 2\nnext\nnext\n4 2\n", "plan 1 0 0 0 0\nplan 2 line 1 refusal 12\nplan 3 0 0 0 0\ntotal 0 0 0 0\n"),
    ("4 2\noff 5\nnext\n", "plan 1 line 2 refusal 3\nplan 2 line 1 refusal 12\ntotal 0 0 0 0\n"),
    // An empty line is a line of its plan that cannot be read.
    ("\n", "plan 1 line 1 refusal 12\ntotal 0 0 0 0\n"),
    ("\n\n\n", "plan 1 line 1 refusal 12\ntotal 0 0 0 0\n"),
    ("\nnext\n4 2\nok\n", "plan 1 line 1 refusal 12\nplan 2 1 4 4 0\ntotal 1 4 4 0\n"),
    ("4 2\nok\n\nnext\n\n4 2\nok\n", "plan 1 line 3 refusal 12\nplan 2 line 1 refusal 12\ntotal 0 0 0 0\n"),
    // A line that is not exactly `next` parts nothing.
    ("4 2\nok\nnext \n4 2\nok\n", "plan 1 line 3 refusal 12\ntotal 0 0 0 0\n"),
    ("4 2\nok\n next\n4 2\nok\n", "plan 1 line 3 refusal 12\ntotal 0 0 0 0\n"),
    ("4 2\nok\nNext\n4 2\nok\n", "plan 1 line 3 refusal 12\ntotal 0 0 0 0\n"),
    ("4 2\nok\nnext\r\n4 2\nok\n", "plan 1 line 3 refusal 12\ntotal 0 0 0 0\n"),
    ("4 2\r\nok\r\nnext\r\n4 2\r\nok\r\n", "plan 1 line 1 refusal 12\ntotal 0 0 0 0\n"),
    ("4 2\nok\nnext 2\nnext\n4 2\nok\n", "plan 1 line 3 refusal 12\nplan 2 1 4 4 0\ntotal 1 4 4 0\n"),
    ("4 2\nok\nnextnext\n4 2\nok\n", "plan 1 line 3 refusal 12\ntotal 0 0 0 0\n"),
    ("4 2\nok\nnex\nt\n4 2\nok\n", "plan 1 line 3 refusal 12\ntotal 0 0 0 0\n"),
    // A last line without a line feed is one that cannot be read, also a `next`; a plan refused before it stays so.
    ("next", "plan 1 line 1 refusal 12\ntotal 0 0 0 0\n"),
    ("4 2", "plan 1 line 1 refusal 12\ntotal 0 0 0 0\n"),
    ("4 2\nok\nnext", "plan 1 line 3 refusal 12\ntotal 0 0 0 0\n"),
    ("4 2\nok\nok", "plan 1 line 3 refusal 12\ntotal 0 0 0 0\n"),
    ("4 2\nok\nnext\nnext", "plan 1 1 4 4 0\nplan 2 line 1 refusal 12\ntotal 1 4 4 0\n"),
    ("4 2\nok\nnext\n4 2\nok", "plan 1 1 4 4 0\nplan 2 line 2 refusal 12\ntotal 1 4 4 0\n"),
    ("5 9\nok", "plan 1 line 1 refusal 2\ntotal 0 0 0 0\n"),
    ("4 2\noff 5\nnext", "plan 1 line 2 refusal 3\ntotal 0 0 0 0\n"),
    ("4 2\nok\nnext\n4 2\non 1\nok\nnext", "plan 1 1 4 4 0\nplan 2 line 2 refusal 11\ntotal 1 4 4 0\n"),
];

pub fn examples(count: &mut Count) -> Result<(), String> {
    for &(file, printed) in EXAMPLES {
        let file = file.replace("; ", "\n") + "\n";
        let printed: String = printed.iter().map(|line| format!("{line}\n")).collect();
        compare_with(count, file.as_bytes(), printed.as_bytes())?;
    }
    Ok(())
}

pub fn refused(count: &mut Count) -> Result<(), String> {
    for &(file, printed) in REFUSED {
        compare_with(count, file.as_bytes(), printed.as_bytes())?;
    }
    Ok(())
}

/// Lines of so many bytes, and the number by which the plan is refused: there is no such node; "Lines of at most 120 bytes".
const LENGTHS: [(usize, u32); 6] = [(6, 3), (119, 3), (120, 3), (121, 12), (122, 12), (10_000, 12)];

/// A line of each of these lengths in the second of three plans.
pub fn lengths(count: &mut Count) -> Result<(), String> {
    for (length, number) in LENGTHS {
        let digits = "9".repeat(length - "off ".len());
        let file = format!("4 2\nok\nnext\n4 2\nok\noff {digits}\nok\nnext\n3 2\nok\n");
        let printed =
            format!("plan 1 1 4 4 0\nplan 2 line 3 refusal {number}\nplan 3 1 3 3 0\ntotal 2 7 7 0\n");
        compare_with(count, file.as_bytes(), printed.as_bytes())?;
    }
    Ok(())
}

/// Every file of plans in plans/, with the expected output beside it.
pub fn samples(count: &mut Count) -> Result<(), String> {
    for sample in printed::samples("plans")? {
        compare_with(count, &sample.text, &sample.expected)
            .map_err(|why| format!("{}: {why}", sample.path.display()))?;
    }
    Ok(())
}
