//! Plans with what they print, typed from document 01 and requests e, f and g or worked out by hand; and the sample
//! plans.

use super::compare::compare_with;
use comparison::printed;
use comparison::report::Count;

/// The lines of a plan, parted by "; ", and those that it prints.
type Vector = (&'static str, &'static [&'static str]);

#[rustfmt::skip]
const EXAMPLES: &[Vector] = &[
    // The listing.
    ("4 2; ok; lost; ok; ok", &["1 1 sent 0000000f 0", "2 2 lost 0000000f 0", "3 3 sent 0000000f 0", "4 4 sent 0000000d 0"]),
    // "node 3 alone misses slot 2: after slot 4 all hold {1,2,3,4}"
    ("4 2; ok; miss 3; ok; ok", &["1 1 sent 0000000f 0", "2 2 sent 0000000f 0", "3 3 sent 0000000f 0", "4 4 sent 0000000f 0"]),
    // "the same with slot 4 lost: .. node 3 holds {1,3,4}, node 1 all four, node 2 is out, distance 1"
    ("4 2; ok; miss 3; ok; lost", &["1 1 sent 0000000f 0", "2 2 sent 0000000f 0", "3 3 sent 0000000f 0", "4 4 lost 0000000f 1"]),
    // "n = 4, k = 3, nodes 1 and 2 off from the start", by request f: "then has 2 leaving at slot 4"
    ("4 3; off 1; off 2; ok; ok; ok; ok; ok; ok; ok; ok", &[
        "1 1 silent 0000000f 0", "2 2 silent 0000000f 0", "3 3 sent 0000000f 0", "4 4 sent 0000000c 0",
        "5 1 silent 0000000c 0", "6 2 silent 0000000c 0", "7 3 sent 0000000c 0", "8 4 sent 0000000c 0",
    ]),
    // The same with the messages of 1 and 2 lost: both leave by themselves in slot 4.
    ("4 3; lost; lost; ok; ok; ok; ok; ok; ok", &[
        "1 1 lost 0000000f 0", "2 2 lost 0000000f 0", "3 3 sent 0000000f 0", "4 4 sent 0000000c 0",
        "5 1 silent 0000000c 0", "6 2 silent 0000000c 0", "7 3 sent 0000000c 0", "8 4 sent 0000000c 0",
    ]),
    // n = 5, k = 3: node 1 leaves in slot 4, follows after slot 14 and knocks in slot 16. In slot 19 node 4 decides 5 of
    // four and 2 of three; then 1 joins.
    ("5 3; lost; ok; ok; ok; on 1; ok; ok; ok; ok; ok; ok; ok; ok; ok; ok; lost; ok; lost; ok; ok; ok; ok; ok; ok; ok", &[
        "1 1 lost 0000001f 0", "2 2 sent 0000001f 0", "3 3 sent 0000001f 0", "4 4 sent 0000001e 0", "5 5 sent 0000001e 0",
        "6 1 silent 0000001e 0", "7 2 sent 0000001e 0", "8 3 sent 0000001e 0", "9 4 sent 0000001e 0", "10 5 sent 0000001e 0",
        "11 1 silent 0000001e 0", "12 2 sent 0000001e 0", "13 3 sent 0000001e 0", "14 4 sent 0000001e 0", "15 5 lost 0000001e 0",
        "16 1 knock 0000001e 0", "17 2 lost 0000001e 0", "18 3 sent 0000001e 0", "19 4 sent 0000000d 0", "20 5 silent 0000000d 0",
        "21 1 sent 0000000d 0", "22 2 silent 0000000d 0", "23 3 sent 0000000d 0", "24 4 sent 0000000d 0",
    ]),
    // Both sponsors of node 1 miss it: 2 and 3 hold {2,3,4}, 4 holds all four.
    ("4 2; miss 2 3; ok; ok", &["1 1 sent 0000000f 0", "2 2 sent 0000000f 0", "3 3 sent 0000000e 1"]),
    // A silent slot on a lost line; with all nodes off there is no list.
    ("3 2; off 1; lost; off 2; off 3; lost; ok", &["1 1 silent 00000007 0", "2 2 silent -------- 0", "3 3 silent -------- 0"]),
    // "A sender .. is unaffected by being named."
    ("3 2; miss 1; ok; ok", &["1 1 sent 00000007 0", "2 2 sent 00000007 0", "3 3 sent 00000007 0"]),
    // In slot 2 node 3 has no other member marked and leaves; in slot 3 nodes 1 and 2 have none left either.
    ("3 2; lost; lost; lost; ok", &["1 1 lost 00000007 0", "2 2 lost 00000007 0", "3 3 silent -------- 0", "4 1 silent -------- 0"]),
    // Request e's example: 2 leaves at slot 4, 3 at 5, 5 at 7, 6 at 10.
    ("6 2; off 2; off 3; off 5; off 6; ok; ok; ok; ok; ok; ok; ok; ok; ok; ok; ok; ok; ok", &[
        "1 1 sent 0000003f 0", "2 2 silent 0000003f 0", "3 3 silent 0000003f 0", "4 4 sent 0000003d 0",
        "5 5 silent 00000039 0", "6 6 silent 00000039 0", "7 1 sent 00000029 0", "8 2 silent 00000029 0",
        "9 3 silent 00000029 0", "10 4 sent 00000009 0", "11 5 silent 00000009 0", "12 6 silent 00000009 0",
        "13 1 sent 00000009 0",
    ]),
    // Request g. 1 and 2 die one after the other; in slot 4 node 4 decides 1 of four and 2 of three.
    ("4 3; off 1; ok; off 2; ok; ok; ok; ok; ok", &[
        "1 1 silent 0000000f 0", "2 2 silent 0000000f 0", "3 3 sent 0000000f 0", "4 4 sent 0000000c 0",
        "5 1 silent 0000000c 0", "6 2 silent 0000000c 0",
    ]),
    // Both sponsors of 1 die after it has sent: slot 3 decides it, and it stays. 4 decides 2 in slot 4, 1 decides 3 in
    // slot 5.
    ("4 2; ok; off 2; ok; off 3; ok; ok; ok; ok; ok; ok", &[
        "1 1 sent 0000000f 0", "2 2 silent 0000000f 0", "3 3 silent 0000000f 0", "4 4 sent 0000000d 0",
        "5 1 sent 00000009 0", "6 2 silent 00000009 0", "7 3 silent 00000009 0", "8 4 sent 00000009 0",
    ]),
    // Node 2 says yes to node 1. Node 3 heard neither of them: in slot 3 it says no to both, and it alone drops 1. Node
    // 1 keeps its mark and sends in slot 5.
    ("4 2; miss 3; miss 3; ok; ok; ok", &[
        "1 1 sent 0000000f 0", "2 2 sent 0000000f 0", "3 3 sent 0000000f 1", "4 4 sent 0000000f 1", "5 1 sent 0000000f 1",
    ]),
    // A set-up and nothing else prints nothing.
    ("4 2", &[]),
    ("32 31; ok", &["1 1 sent ffffffff 0"]),
];

/// A plan as it stands, and the line that it ends with after the slots that ran.
type Refused = (&'static str, &'static str);

#[rustfmt::skip]
const REFUSED: &[Refused] = &[
    // "Empty input or a missing last line feed is an unreadable line."
    ("", "line 1 refusal 12\n"),
    ("4 2", "line 1 refusal 12\n"),
    ("2 9", "line 1 refusal 12\n"),
    ("4 2\nok", "line 2 refusal 12\n"),
    ("4 2\nok\nok", "1 1 sent 0000000f 0\nline 3 refusal 12\n"),
    ("4 2\nok\n\n", "1 1 sent 0000000f 0\nline 3 refusal 12\n"),
    ("\n4 2\n", "line 1 refusal 12\n"),
    // "Line one: n, space, k": readable, then 1, then 2.
    ("2 9\n", "line 1 refusal 1\n"),
    ("2 1\n", "line 1 refusal 1\n"),
    ("33 40\n", "line 1 refusal 1\n"),
    ("0 2\n", "line 1 refusal 1\n"),
    ("4294967300 2\n", "line 1 refusal 1\n"),
    ("18446744073709551620 2\n", "line 1 refusal 1\n"),
    ("4 1\n", "line 1 refusal 2\n"),
    ("4 4\n", "line 1 refusal 2\n"),
    ("4 0\n", "line 1 refusal 2\n"),
    ("4 4294967298\n", "line 1 refusal 2\n"),
    ("4\n", "line 1 refusal 12\n"),
    ("4 2 \n", "line 1 refusal 12\n"),
    (" 4 2\n", "line 1 refusal 12\n"),
    ("4  2\n", "line 1 refusal 12\n"),
    ("4 2 1\n", "line 1 refusal 12\n"),
    ("04 2\n", "line 1 refusal 12\n"),
    ("4 02\n", "line 1 refusal 12\n"),
    ("+4 2\n", "line 1 refusal 12\n"),
    ("4 -2\n", "line 1 refusal 12\n"),
    ("4,2\n", "line 1 refusal 12\n"),
    ("4 2\r\n", "line 1 refusal 12\n"),
    ("2 x\n", "line 1 refusal 12\n"),
    ("ok\n", "line 1 refusal 12\n"),
    // "Plan numbers of readable form but wrong value give 1, 2 or 3."
    ("4 2\noff 5\n", "line 2 refusal 3\n"),
    ("4 2\noff 0\n", "line 2 refusal 3\n"),
    ("4 2\noff 4294967297\n", "line 2 refusal 3\n"),
    ("4 2\non 5\n", "line 2 refusal 3\n"),
    ("4 2\nmiss 0\n", "line 2 refusal 3\n"),
    ("4 2\nmiss 0 1\n", "line 2 refusal 3\n"),
    ("4 2\nmiss 1 5\n", "line 2 refusal 3\n"),
    ("4 2\nmiss 4 100 4294967296\n", "line 2 refusal 3\n"),
    ("4 2\nmiss 18446744073709551615 18446744073709551616\n", "line 2 refusal 3\n"),
    // "restart of a node that is not out", and the second time: it listens.
    ("4 2\non 1\n", "line 2 refusal 11\n"),
    ("4 2\noff 1\non 1\non 1\nok\n", "line 4 refusal 11\n"),
    // "a plan line is tested for 12 first"
    ("4 2\nmiss 2 1\n", "line 2 refusal 12\n"),
    ("4 2\nmiss 2 2\n", "line 2 refusal 12\n"),
    ("4 2\nmiss 9 8\n", "line 2 refusal 12\n"),
    ("4 2\nmiss 18446744073709551616 18446744073709551615\n", "line 2 refusal 12\n"),
    ("4 2\nmiss 9 08\n", "line 2 refusal 12\n"),
    ("4 2\nmiss\n", "line 2 refusal 12\n"),
    ("4 2\nmiss \n", "line 2 refusal 12\n"),
    ("4 2\nmiss 1 \n", "line 2 refusal 12\n"),
    ("4 2\nmiss 1  2\n", "line 2 refusal 12\n"),
    ("4 2\nmiss  1\n", "line 2 refusal 12\n"),
    ("4 2\nmiss1\n", "line 2 refusal 12\n"),
    ("4 2\nmiss 00\n", "line 2 refusal 12\n"),
    ("4 2\noff\n", "line 2 refusal 12\n"),
    ("4 2\noff \n", "line 2 refusal 12\n"),
    ("4 2\noff 1 2\n", "line 2 refusal 12\n"),
    ("4 2\noff 01\n", "line 2 refusal 12\n"),
    ("4 2\noff 5x\n", "line 2 refusal 12\n"),
    ("4 2\non 1 2\n", "line 2 refusal 12\n"),
    ("4 2\nok \n", "line 2 refusal 12\n"),
    ("4 2\nok 1\n", "line 2 refusal 12\n"),
    ("4 2\nokay\n", "line 2 refusal 12\n"),
    ("4 2\no\n", "line 2 refusal 12\n"),
    ("4 2\n ok\n", "line 2 refusal 12\n"),
    ("4 2\nOK\n", "line 2 refusal 12\n"),
    ("4 2\nok\r\n", "line 2 refusal 12\n"),
    ("4 2\nlost 1\n", "line 2 refusal 12\n"),
    ("4 2\nlos\n", "line 2 refusal 12\n"),
    ("4 2\nok\0\n", "line 2 refusal 12\n"),
    ("4 2\nmiss\t1\n", "line 2 refusal 12\n"),
    ("4 2\n4 2\n", "line 2 refusal 12\n"),
];

/// The examples of document 01 and of requests e, f and g, and some more.
pub fn examples(count: &mut Count) -> Result<(), String> {
    for &(plan, printed) in EXAMPLES {
        let plan = plan.replace("; ", "\n") + "\n";
        let printed: String = printed.iter().map(|line| format!("{line}\n")).collect();
        compare_with(count, plan.as_bytes(), printed.as_bytes())?;
    }
    Ok(())
}

pub fn refused(count: &mut Count) -> Result<(), String> {
    for &(plan, printed) in REFUSED {
        compare_with(count, plan.as_bytes(), printed.as_bytes())?;
    }
    Ok(())
}

/// Every plan of plans/, with the expected output beside it.
pub fn samples(count: &mut Count) -> Result<(), String> {
    for sample in printed::samples("plan")? {
        compare_with(count, &sample.text, &sample.expected)
            .map_err(|why| format!("{}: {why}", sample.path.display()))?;
    }
    Ok(())
}
