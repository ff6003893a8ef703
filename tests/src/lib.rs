//! The library beside a model written from document 01 and the requests of document 02 that have landed, not
//! from the library's code.

pub mod adversary;
pub mod asked;
pub mod careful;
pub mod causes;
pub mod child;
pub mod damaged_plans;
pub mod drawn_plans;
pub mod events;
pub mod lasting;
pub mod lent;
pub mod library;
pub mod line_causes;
pub mod memory;
pub mod message_causes;
pub mod messages;
pub mod model;
pub mod numbers;
pub mod plan;
pub mod plan_bytes;
pub mod plan_files;
pub mod plan_lines;
pub mod power_cut;
pub mod printed;
pub mod random;
pub mod record_bytes;
pub mod recorded_lines;
pub mod records;
pub mod report;
pub mod rows;
pub mod slot_tables;
pub mod typed_rows;
