//! How lines of timetables (document 02, M-105) are read, and that they can fail.

use super::{parse, run};

#[test]
fn a_right_line_passes() {
    for right in [
        "small dock: timetable of 2 blocks by 1 1 1 2, 2 2 1 2 => table 19 31",
        "small dock: timetable of 1 block by 1 2 1 2 => table 18",
        "small dock: timetable of 4 blocks by 1 2 1 2 => table 18 36, then 18 apart, 4 entries",
        "small dock: timetable of 1 block by 1 2 1 2 in 60 bytes into 2 entries of 9 => table 18",
        "small dock: timetable of 1 block by 1 2 1 2 into 1 entry of 9 => table 18",
        "small dock: timetable of 1 block by 1 2 1 2 with byte 47 = 1 => refusal 12, place 12",
        "small dock: timetable of 4294967295 blocks by 1 2 1 2 => refusal 21",
        "small dock by laws, execution of task 2 by 9: timetable of 2 blocks by 1 2 1 3 => table 9 18",
    ] {
        assert_eq!(run(right), Ok(()), "{right}");
    }
}

#[test]
fn a_wrong_answer_fails() {
    for wrong in [
        "small dock: timetable of 2 blocks by 1 1 1 2, 2 2 1 2 => table 19 32",
        "small dock: timetable of 2 blocks by 1 1 1 2, 2 2 1 2 => table 18 31",
        "small dock: timetable of 4 blocks by 1 2 1 2 => table 18 36, then 19 apart, 4 entries",
        "small dock: timetable of 2 blocks by 1 2 1 2 => refusal 21",
        "small dock: timetable of 2 blocks by 1 2 2 2 => table 18 36",
        "small dock: timetable of 2 blocks by 1 2 2 2 => refusal 20",
        "small dock: timetable of 2 blocks by 1 2 2 2 => refusal 20, place 2",
        "small dock: timetable of 0 blocks by 1 2 1 2 => refusal 21, place 1",
        "small dock, capacity = 0: timetable of 1 block by 1 2 1 2 => table 18",
    ] {
        assert!(parse(wrong).is_ok(), "{wrong}");
        assert!(run(wrong).is_err(), "{wrong}");
    }
}

#[test]
fn tables_that_cannot_be_read_are_an_error() {
    for wrong in [
        "small dock: timetable of 1 blocks by 1 2 1 2 => table 18",
        "small dock: timetable of 2 block by 1 2 1 2 => table 18 36",
        "small dock: timetable of blocks by 1 2 1 2 => table 18",
        "small dock: timetable of 4294967296 blocks by 1 2 1 2 => refusal 21",
        "small dock: timetable of 1 block => table 18",
        "small dock: timetable by 1 2 1 2 => table 18",
        "small dock: timetable of 1 block by 1 2 1 => table 18",
        "small dock: timetable of 1 block by 1 2 1 2 into 2 bytes => table 18",
        "small dock: timetable of 1 block by 1 2 1 2 into 1 entries => table 18",
        "small dock: timetable of 1 block by 1 2 1 2 into 2 entries in 60 bytes => table 18",
        "small dock: timetable of 2 blocks by 1 2 1 2 into 1 entry => table 18 36",
        "small dock: timetable of 2 blocks by 1 2 1 2 => table 18",
        "small dock: timetable of 2 blocks by 1 2 1 2 => table 18 36 54",
        "small dock: timetable of 2 blocks by 1 2 1 2 => table",
        "small dock: timetable of 2 blocks by 1 2 1 2 => table 18, 36",
        "small dock: timetable of 2 blocks by 1 2 1 2 => table 18, then 18 apart",
        "small dock: timetable of 2 blocks by 1 2 1 2 => table 18 36, then 18 apart, 2 entries",
        "small dock: timetable of 2 blocks by 1 2 1 2 => table 18, then 18 apart, 1001 entries",
        "small dock: timetable of 1 block by 1 2 1 2 => time 18",
        "small dock: timetable of 1 block by 1 2 1 2 => accepted",
        "small dock: block time of 1 2 1 2 => table 18",
        "small dock: judge 1 2 1 2 => table 18",
        "small dock: read => table 18",
        "small dock by laws: fill costs => table 18",
    ] {
        assert!(parse(wrong).is_err(), "{wrong}");
    }
}
