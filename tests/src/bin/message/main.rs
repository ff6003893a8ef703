//! The reader, the writer and the converter of messages: the library beside the model.

mod compare;
mod converter;
mod converter_causes;
mod converter_trips;
mod converter_vectors;
mod converting;
mod reader;
mod round_trips;
mod two_sections;
mod vectors;
mod writer;

use comparison::report::{self, Case};
use std::process::ExitCode;

const CASES: &[Case] = &[
    Case {
        name: "vectors: messages of document 01 and request h, model and library",
        meets: &[0, 2, 6, 7, 8, 14],
        run: vectors::reads,
    },
    Case {
        name: "vectors: calls of the writer by document 01 and request h, model and library",
        meets: &[0, 2, 8, 9, 14],
        run: vectors::writes,
    },
    Case {
        name: "reader: every k from 0 to 40 and large ones, lengths 0 to 12 and long ones",
        meets: &[0, 2, 6, 7, 8],
        run: reader::every_k,
    },
    Case {
        name: "reader: every k and m in range and out of it, messages of each m",
        meets: &[0, 2, 6, 7, 8, 14],
        run: reader::every_k_and_m,
    },
    Case {
        name: "reader: all messages of k = 2 to 8, each byte changed to every value, lengths 0 to 10",
        meets: &[0, 6, 7, 8],
        run: reader::near_messages_of_small_k,
    },
    Case {
        name: "reader: messages of k = 9 to 31, each byte changed to every value",
        meets: &[0, 7, 8],
        run: reader::near_messages_of_large_k,
    },
    Case {
        name: "reader: every two bytes as third section, every m and 9",
        meets: &[0, 7, 8, 14],
        run: reader::every_third_section,
    },
    Case {
        name: "reader: several things wrong at once",
        meets: &[0, 2, 6, 7, 8, 14],
        run: reader::several_faults,
    },
    Case {
        name: "reader: every choice of wrong counts and spare bits, every k and m",
        meets: &[0, 2, 6, 7, 8, 14],
        run: reader::several_faults_of_jobs,
    },
    Case {
        name: "reader: random messages, valid and damaged",
        meets: &[0, 2, 6, 7, 8, 14],
        run: reader::random,
    },
    Case {
        name: "writer: every k from 0 to 40 and large ones, output lengths 0 to 12 and long ones",
        meets: &[0, 2, 8, 9],
        run: writer::every_k,
    },
    Case {
        name: "writer: all acknowledgements of k = 2 to 8 and past k, output lengths 0 to 12",
        meets: &[0, 8, 9],
        run: writer::all_of_small_k,
    },
    Case {
        name: "writer: every job byte, m in range and out of it",
        meets: &[0, 2, 8, 9, 14],
        run: writer::every_job_byte,
    },
    Case { name: "writer: random calls", meets: &[0, 2, 8, 9, 14], run: writer::random },
    Case {
        name: "round trips: written and read, by library and model in turn",
        meets: &[0],
        run: round_trips::written_then_read,
    },
    Case {
        name: "round trips: every job byte of every k and m",
        meets: &[0],
        run: round_trips::every_job_byte,
    },
    Case {
        name: "round trips: what the library reads it writes back, byte for byte",
        meets: &[0],
        run: round_trips::read_then_written,
    },
    Case {
        name: "two sections read: every k from 0 to 40 and large ones, each byte changed to every value",
        meets: &[0, 2, 6, 7, 8],
        run: two_sections::read_near,
    },
    Case {
        name: "two sections read: random messages, damaged and of another k",
        meets: &[0, 2, 6, 7, 8],
        run: two_sections::read_random,
    },
    Case {
        name: "two sections read: several things wrong at once, every k",
        meets: &[0, 2, 6, 7, 8],
        run: two_sections::read_several_faults,
    },
    Case {
        name: "two sections written: every k from 0 to 40 and large ones, every number of lent bytes",
        meets: &[0, 2, 8, 9],
        run: two_sections::written,
    },
    Case {
        name: "vectors: recorded messages of document 01 brought to three sections, model and library",
        meets: &[0, 2, 6, 7, 8, 9],
        run: converter_vectors::to_three,
    },
    Case {
        name: "vectors: messages taken back to two sections by request i, model and library",
        meets: &[0, 2, 6, 7, 8, 9, 15],
        run: converter_vectors::to_two,
    },
    Case {
        name: "to three: every k from 0 to 40 and large ones, lengths 0 to 12 and long ones",
        meets: &[0, 2, 6, 7, 8, 9],
        run: converter::every_k_to_three,
    },
    Case {
        name: "to two: every k from 0 to 40 and large ones, lengths 0 to 12 and long ones",
        meets: &[0, 2, 6, 7, 8, 9, 15],
        run: converter::every_k_to_two,
    },
    Case {
        name: "to three: messages of every k, each byte changed to every value, three bytes more or fewer",
        meets: &[0, 6, 7, 8],
        run: converter::near_to_three,
    },
    Case {
        name: "to two: messages of every k, each byte changed to every value, three bytes more or fewer",
        meets: &[0, 6, 7, 8, 15],
        run: converter::near_to_two,
    },
    Case {
        name: "to two: every two bytes as third section",
        meets: &[0, 7, 8, 15],
        run: converter::every_third_section,
    },
    Case {
        name: "to three: every choice of causes at once, every k",
        meets: &[0, 2, 6, 7, 8, 9],
        run: converter_causes::to_three,
    },
    Case {
        name: "to two: every choice of causes at once, every k",
        meets: &[0, 2, 6, 7, 8, 9, 15],
        run: converter_causes::to_two,
    },
    Case {
        name: "to three: every number of lent bytes, every k",
        meets: &[0, 6, 7, 8, 9],
        run: converter::every_room_to_three,
    },
    Case {
        name: "to two: every number of lent bytes, every k",
        meets: &[0, 6, 7, 8, 9, 15],
        run: converter::every_room_to_two,
    },
    Case {
        name: "to three: random messages, valid and damaged",
        meets: &[0, 2, 6, 7, 8, 9],
        run: converter::random_to_three,
    },
    Case {
        name: "to two: random messages, valid and damaged",
        meets: &[0, 2, 6, 7, 8, 9, 15],
        run: converter::random_to_two,
    },
    Case {
        name: "there and back: two sections, three, the same two",
        meets: &[0],
        run: converter_trips::from_two,
    },
    Case {
        name: "there and back: three sections with no jobs, two, the same three",
        meets: &[0],
        run: converter_trips::from_three,
    },
    Case {
        name: "both forms: the library reads from three sections what the model reads from two",
        meets: &[0],
        run: converter_trips::reads,
    },
];

fn main() -> ExitCode {
    report::run(CASES)
}
