//! A second planner of core plans, written from documents 01 (the scope) and 02 (the requests), to hold the static library
//! against.
//!
//! `costs`, `plan`, `judge`, `block_time`, `timetable`, `greedy`, `every`, `laws` and `reach` say what the services answer, in the
//! most obvious way; `every` tries all plans. `threshold`, `filling` and `recurrence` are the library's own ways in Rust, `paper`
//! is the dynamic program of source document 000 and `lightest` one for cores and time. `cases` and `damage` make files, laws and
//! streams from seeds; `compare` and `round` tell two providers of the services apart. `written` reads the cases that are written
//! as text.

pub mod answer;
pub mod block_time;
pub mod cases;
pub mod compare;
pub mod costs;
pub mod damage;
pub mod every;
pub mod filling;
pub mod greedy;
pub mod judge;
pub mod laws;
pub mod library;
pub mod lightest;
pub mod paper;
pub mod plan;
pub mod random;
pub mod reach;
pub mod recurrence;
pub mod round;
pub mod services;
pub mod tally;
pub mod threshold;
pub mod timetable;
pub mod written;
