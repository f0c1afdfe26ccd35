//! Cases written as text (docs/CASES.md): a line says the costs, the call and what is due.

mod call;
mod check;
mod costs;
mod due;
mod fill;
mod laws;
#[cfg(test)]
mod tables;
mod words;

use std::fs;
use std::path::{Path, PathBuf};

use crate::services::Services;
use call::Call;
use due::Due;
use fill::Fill;
use laws::Lawful;

/// A line of `cases/*.txt` that is a case, with its file and number.
pub struct Line {
    pub place: String,
    pub text: String,
}

/// All cases that are written, in the order of the files' names. Comments and blank lines are none.
pub fn lines() -> Vec<Line> {
    let folder = Path::new(env!("CARGO_MANIFEST_DIR")).join("../cases");
    let entries = fs::read_dir(&folder).expect("the folder of cases can be read");
    let mut files: Vec<PathBuf> = entries
        .map(|entry| entry.expect("an entry of the folder").path())
        .collect();
    files.sort();
    files.iter().flat_map(|path| lines_of(path)).collect()
}

fn lines_of(path: &Path) -> Vec<Line> {
    let name = path.file_name().expect("a file has a name").display();
    assert!(name.to_string().ends_with(".txt"), "{name} has no cases");
    let text = fs::read_to_string(path).expect("a file of cases can be read");
    let is_case = |line: &str| !line.is_empty() && !line.starts_with('#');
    let lines = text.lines().enumerate().filter(|(_, line)| is_case(line));
    lines
        .map(|(i, line)| Line {
            place: format!("cases/{name}:{}", i + 1),
            text: line.to_string(),
        })
        .collect()
}

/// Cost records, or what they are to be filled in from.
#[derive(Debug)]
enum Costs {
    Records(Vec<u8>),
    Laws(Lawful),
}

/// A case of the services on cost records, understood.
#[derive(Debug)]
struct Planned {
    costs: Costs,
    call: Call,
    due: Due,
}

/// Any case, understood.
#[derive(Debug)]
enum Case {
    Planned(Planned),
    Fill(Fill),
}

/// Reads a line, and holds the library and the second planner to it; else what cannot be read, or what differs.
pub fn run(line: &str) -> Result<(), String> {
    match parse(line)? {
        Case::Planned(case) => check::agree(&case),
        Case::Fill(case) => fill::agree(&case),
    }
}

/// Reads a line, and holds one provider of the services to it.
pub fn hold(services: &Services, line: &str) -> Result<(), String> {
    match parse(line)? {
        Case::Planned(case) => check::held(services, &case),
        Case::Fill(case) => fill::held(services, &case),
    }
}

fn parse(line: &str) -> Result<Case, String> {
    let (costs, rest) = words::split(line, ": ")?;
    let (call, due) = words::split(rest, " => ")?;
    if let Some(out) = fill::call(call) {
        return Ok(Case::Fill(fill::parse(costs, out?, due)?));
    }
    let case = Planned {
        costs: match laws::parse(costs) {
            Some(lawful) => Costs::Laws(lawful?),
            None => Costs::Records(costs::parse(costs)?),
        },
        call: call::parse(call)?,
        due: due::parse(due)?,
    };
    if case.call.suits(&case.due) {
        Ok(Case::Planned(case))
    } else {
        Err(format!("`{due}` is not what `{call}` can be due"))
    }
}

#[cfg(test)]
mod tests {
    use super::*;

    const RIGHT: &str = "small dock, capacity = 50: best plan => plan 1 1 1 1, 2 2 1 3; 2 modules, 4 cores, slowest 1, response 14, r 1";

    #[test]
    fn a_right_line_passes() {
        assert_eq!(run(RIGHT), Ok(()));
        for right in [
            "small dock: reach of task 1 => reach 2",
            "small dock: block time of 1 2 2 2 => time 18",
            "small dock: block time of 1 1 2 1, 2 2 1 2 in 60 bytes => time 24",
            "small dock: block time of 1 2 2 2 with byte 47 = 1 => refusal 12, place 12",
            "small dock: block time of 255 everywhere in 47 bytes => refusal 7",
            "small dock by laws, execution of task 2 by 1 20 0: block time of 1 2 1 3 => time 8",
            "small dock, capacity = 0: read => refusal 3",
            "small dock: read => accepted",
            "small dock, D = 255: read => accepted",
            "small dock, D = 10: judge 1 2 2 2 => 1 module, 4 cores, slowest 1, response 28, r 2",
            "small dock, task of record 1 = 10: block time of 1 2 2 2 => time 28",
            "small dock by laws, D = 7: fill costs => 248 bytes",
            "small dock by laws, D = 7: block time of 1 2 2 2 => time 7",
        ] {
            assert_eq!(run(right), Ok(()), "{right}");
        }
    }

    /// Each number of a right line, changed, is a case that fails.
    #[test]
    fn a_wrong_answer_fails() {
        let due = RIGHT.find("=>").expect("the line has a due part");
        let digits = RIGHT.char_indices().filter(|(_, c)| c.is_ascii_digit());
        for (i, _) in digits.filter(|&(i, _)| i > due) {
            let mut wrong = RIGHT.to_string();
            wrong.replace_range(i..=i, "5");
            assert!(run(&wrong).is_err(), "{wrong}");
        }
        for wrong in [
            "small dock: judge 1 2 1 1 => refusal 14, place 2",
            "small dock: judge 1 2 1 1 => refusal 14",
            "small dock: read => refusal 4",
            "small dock, capacity = 0: read => accepted",
            "small dock: reach of task 1 => reach 1",
            "small dock, capacity = 50: reach of task 1 => reach 2",
            "small dock: reach of task 3 => reach 2",
            "small dock: reach of task 3 => refusal 5",
            "small dock, capacity = 0: reach of task 1 => reach 0",
            "small dock, flag of task 2 = 2: reach of task 1 => refusal 6, place 2",
            "small dock: block time of 1 2 2 2 => time 19",
            "small dock: block time of 1 2 2 2 => refusal 15",
            "small dock: block time of 1 2 1 1 => refusal 14",
            "small dock: block time of 1 2 1 1 => time 33",
            "small dock, capacity = 0: block time of 1 2 2 2 => time 18",
            "small dock, D = 10: judge 1 2 2 2 => 1 module, 4 cores, slowest 1, response 18, r 2",
            "small dock, D = 10: judge 1 2 1 2 => 1 module, 2 cores, slowest 1, response 28, r 1",
            "small dock, D = 10: block time of 1 2 2 2 => time 18",
            "small dock, D = 10: read => refusal 2",
            "every law 0, k = 1, P = 1: fill costs => 32 bytes",
            "every law 0, k = 1, P = 1: fill costs => refusal 19",
            "every law 0, k = 1, P = 1: fill costs => 24 bytes, execution of task 1 = 1",
            "every law 0, k = 1, P = 1, zero of law 1 = 1: fill costs => 24 bytes",
            "every law 0, k = 1, P = 1, zero of law 1 = 1: fill costs => refusal 17, place 1",
            "every law 0, k = 1, P = 1, zero of law 1 = 1: best plan => refusal 17",
        ] {
            assert!(run(wrong).is_err(), "{wrong}");
        }
    }

    #[test]
    fn what_cannot_be_read_is_an_error() {
        for wrong in [
            "small dock: best plan",
            "small dock; best plan => refusal 9",
            "large dock: best plan => refusal 9",
            "small dock, capacity = many: best plan => refusal 9",
            "small dock, need of task 3 = 1: best plan => refusal 9",
            "small dock, need of task 1 at 1 = 5: best plan => refusal 9",
            "small dock, limit of task 3 = 1: best plan => refusal 9",
            "small dock, limit of task 1 = 256: read => refusal 6, place 2",
            "small dock, every limit of task 1 = 1: read => accepted",
            "small dock, execution of task 1 = 1 2 3 4 5: best plan => refusal 9",
            "small dock, byte 248 = 1: read => refusal 6, place 31",
            "small dock, byte 0 = 256: read => refusal 2",
            "small dock, D = 256: read => accepted",
            "small dock, D = 1 2: read => accepted",
            "small dock, D = : read => accepted",
            "small dock, D of task 1 = 1: read => accepted",
            "small dock, cut to 249 bytes: read => refusal 1",
            "every cost 0, k = 13, P = 1: read => accepted",
            "every cost 0, P = 1, k = 1: read => accepted",
            "small dock: judge 1 2 1 => refusal 12, place 1",
            "small dock: judge 1 2 1 256 => refusal 15",
            "small dock: judge 1 2 2 2 => plan 1 2 2 2; 1 module, 4 cores, slowest 1, response 18, r 2",
            "small dock: best plan => 1 module, 4 cores, slowest 1, response 18, r 2",
            "small dock: best plan => accepted",
            "small dock: bench way 65536 => refusal 10",
            "small dock: bench way 1 with 7 words => refusal 10",
            "small dock: judge 1 2 2 2 => 1 modules, 4 cores, slowest 1, response 18, r 2",
            "small dock: judge 1 2 2 2  => 1 module, 4 cores, slowest 1, response 18, r 2",
        ] {
            assert!(parse(wrong).is_err(), "{wrong}");
        }
    }

    #[test]
    fn reaches_that_cannot_be_read_are_an_error() {
        for wrong in [
            "small dock: reach of task 256 => reach 0",
            "small dock: reach of task => reach 0",
            "small dock: reach => reach 0",
            "small dock: reach of task 1 => 2",
            "small dock: reach of task 1 => reach two",
            "small dock: reach of task 1 => reach 2, place 1",
            "small dock: reach of task 1 => accepted",
            "small dock: reach of task 1 => 1 module, 4 cores, slowest 1, response 18, r 2",
            "small dock: reach of task 1 into 48 bytes => reach 2",
            "small dock: best plan => reach 2",
            "small dock: judge 1 2 2 2 => reach 2",
            "small dock: read => reach 2",
            "small dock by laws: fill costs => reach 2",
        ] {
            assert!(parse(wrong).is_err(), "{wrong}");
        }
    }

    #[test]
    fn times_that_cannot_be_read_are_an_error() {
        for wrong in [
            "small dock: block time of => time 18",
            "small dock: block time 1 2 2 2 => time 18",
            "small dock: block time of 1 2 2 => time 18",
            "small dock: block time of 1 2 2 2 into 48 bytes => time 18",
            "small dock: block time of 1 2 2 2 => 18",
            "small dock: block time of 1 2 2 2 => time 18, place 1",
            "small dock: block time of 1 2 2 2 => reach 18",
            "small dock: block time of 1 2 2 2 => accepted",
            "small dock: block time of 1 2 2 2 => 1 module, 4 cores, slowest 1, response 18, r 2",
            "small dock: judge 1 2 2 2 => time 18",
            "small dock: best plan => time 18",
            "small dock: reach of task 1 => time 2",
            "small dock: read => time 18",
            "small dock by laws: fill costs => time 18",
        ] {
            assert!(parse(wrong).is_err(), "{wrong}");
        }
    }

    #[test]
    fn laws_that_cannot_be_read_are_an_error() {
        for wrong in [
            "small dock: fill costs => 248 bytes",
            "small dock by laws: fill costs => accepted",
            "small dock by laws: fill costs => 31 records",
            "small dock by laws: fill costs => plan 1 2 2 2; 1 module, 4 cores, slowest 1, response 18, r 2",
            "small dock by laws: fill costs => 248 bytes of small costs",
            "small dock by laws: fill costs => 248 bytes, execution of task 3 = 1",
            "small dock by laws: fill costs into 247 bytes => 248 bytes",
            "small dock by laws: fill costs with 7 words => 248 bytes",
            "small dock by laws: best plan => 248 bytes",
            "small dock by laws, 232 bytes more: fill costs => 248 bytes",
            "small dock by laws, execution of task 1 = 5: fill costs => 248 bytes",
            "small dock by laws, execution of task 1 by 1 2: fill costs => 248 bytes",
            "small dock by laws, execution of task 3 by 1: fill costs => 248 bytes",
            "small dock by laws, need of task 1 by 1: fill costs => 248 bytes",
            "small dock by laws, form of law 5 = 1: fill costs => refusal 17",
            "small dock by laws, form of law 1: fill costs => refusal 17",
            "small dock by laws, C6 of law 1 = 1: fill costs => refusal 17",
            "small dock by laws, zero of law 1 = 256: fill costs => refusal 17",
            "small dock by laws, byte 96 of laws = 1: fill costs => refusal 17",
            "small dock by laws, laws cut to 97 bytes: fill costs => refusal 17",
            "rising laws, k = 13, P = 1: fill costs => refusal 3",
        ] {
            assert!(parse(wrong).is_err(), "{wrong}");
        }
    }
}
