//! The rules of document 01 and the requests of document 02 that have landed, written from their texts alone.

pub mod bench;
pub mod choices;
pub mod counts;
pub mod cover_light;
pub mod demand;
pub mod held;
pub mod ledger;
pub mod many_dead;
pub mod message;
pub mod node;
pub mod part;
pub mod pieces;
pub mod plan_report;
pub mod program;
pub mod recorded;
pub mod recorded_pieces;
pub mod recorded_text;
pub mod refusal;
pub mod report_pieces;
pub mod ring;
pub mod roll;
pub mod row;
pub mod slot_table;
