//! The numbers of document 01's table "Causes and their numbers", and of document 02's requests.

/// "n not 3 to 32"
pub const N: u32 = 1;
/// "k not 2 to n - 1 (reader and writer alone: 2 to 31)"; request j: "k is at most n - 1 less the lag"
pub const K: u32 = 2;
/// "node number not 1 to n"
pub const NODE: u32 = 3;
/// "record not sound, table not as above"
pub const UNSOUND: u32 = 4;
/// "slot count at the limit"
pub const LIMIT: u32 = 5;
/// "message length wrong for k"
pub const LENGTH: u32 = 6;
/// "a section's count wrong"
pub const COUNT: u32 = 7;
/// "spare bit set; for the writer, an acknowledgement past k"
pub const SPARE: u32 = 8;
/// "lent output too short"
pub const OUTPUT: u32 = 9;
/// "the next slot is not this node's, or it neither is a member nor follows with returning 0"
pub const TURN: u32 = 10;
/// "restart of a node that is not out"
pub const NOT_OUT: u32 = 11;
/// "plan line unreadable or too long"
pub const LINE: u32 = 12;
/// request a: "a ledger whose length is not n, or with a count above the slot count plus one"
pub const LEDGER: u32 = 13;
/// request h: "Job count above 8 at set-up, in reader or writer"
pub const JOBS: u32 = 14;
/// request i: "Message with a job count of 1 to 8 to be taken back"
pub const TAKEN_BACK: u32 = 15;
/// request j: "Lag above 1"
pub const LAG: u32 = 16;
/// request k: "Table of the wrong length"
pub const TABLE_LENGTH: u32 = 17;
/// request k: "A node missing or doubled"
pub const TABLE_NODES: u32 = 18;
/// request m: "A sum passing 64 bits"
pub const SUM: u32 = 19;
/// request n: "Base above 254 or a table not of n entries"
pub const BASES: u32 = 20;
