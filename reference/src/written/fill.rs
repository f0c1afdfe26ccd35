//! Cases of document 02's M-101, costs filled in from laws: what is lent, what is due, and holding the providers to it.

use super::call::{self, Lent};
use super::check::{MARGIN, lent, same};
use super::laws::{self, Lawful};
use super::words::{matched, split_if};
use super::{costs, due};
use crate::answer::Filled;
use crate::costs::LARGEST;
use crate::services::{LIBRARY, REFERENCE, Services};

/// What is lent where a line does not say so: room for the 12,013 records of 12 tasks on 32 cores.
const OUT: Lent<u8> = Lent {
    length: LARGEST,
    held: 255,
};

/// What is lent, and what is due: the answer, and the records that it counts.
#[derive(Debug)]
pub struct Fill {
    lawful: Lawful,
    out: Lent<u8>,
    answer: Filled,
    records: Vec<u8>,
}

/// What the call lends for output; none if it is another call.
pub fn call(text: &str) -> Option<Result<Lent<u8>, String>> {
    let (name, out) = split_if(text, " into ");
    (name == "fill costs").then(|| call::lent(out, "# bytes", OUT))
}

pub fn parse(costs: &str, out: Lent<u8>, due: &str) -> Result<Fill, String> {
    let lawful = laws::parse(costs).ok_or("no laws to fill in from")??;
    let (answer, records) = match due.strip_prefix("refusal ") {
        Some(refused) => (due::refusal(refused)?.into(), Vec::new()),
        None => records(&lawful.head, due)?,
    };
    if records.len() > out.length {
        return Err(format!("{} bytes cannot hold `{due}`", out.length));
    }
    Ok(Fill {
        lawful,
        out,
        answer,
        records,
    })
}

/// `248 bytes` or `96104 bytes of rising costs`, then values: the first part as lent, and behind it the times of that file, all 0
/// where none is named, with these values.
fn records(head: &[u8], due: &str) -> Result<(Filled, Vec<u8>), String> {
    let (first, values) = split_if(due, ", ");
    let (count, file) = split_if(first, " of ");
    let (Some([count]), [_, _, cores, tasks, ..]) = (matched("# bytes", count), head) else {
        return Err(format!("`{due}` is nothing that can be filled in"));
    };
    let file = file.unwrap_or("every cost 0");
    let mut bytes = costs::parse(&format!("{file}, k = {tasks}, P = {cores}"))?;
    let first_part = bytes.get_mut(..head.len()).ok_or("too long a first part")?;
    first_part.copy_from_slice(head);
    for change in values.into_iter().flat_map(|values| values.split(", ")) {
        costs::change_values(&mut bytes, change)?;
    }
    Ok((Filled::counted(count), bytes))
}

/// The library and the second planner give what the text says.
pub fn agree(case: &Fill) -> Result<(), String> {
    for (name, services) in [("library", &LIBRARY), ("reference", &REFERENCE)] {
        held(services, case).map_err(|what| format!("the {name}: {what}"))?;
    }
    Ok(())
}

/// One provider gives the due answer; the output holds the due records and, behind them, what it held.
pub fn held(services: &Services, case: &Fill) -> Result<(), String> {
    let mut bytes = lent(case.out);
    bytes[MARGIN..MARGIN + case.records.len()].copy_from_slice(&case.records);
    let (answer, found) = given(services, &case.lawful, case.out)?;
    same("answer", &[case.answer], &[answer])?;
    same("output, from 16 before", &bytes, &found)
}

/// The cost records that a provider fills in from accepted laws.
pub fn filled_in(services: &Services, lawful: &Lawful) -> Result<Vec<u8>, String> {
    let (answer, mut bytes) = given(services, lawful, OUT)?;
    bytes.drain(..MARGIN);
    bytes.truncate(answer.count as usize);
    match answer.refusal {
        0 => Ok(bytes),
        _ => Err(format!("the laws are refused: {answer:?}")),
    }
}

/// The answer, and the output with its margins. The first part and the laws are as before.
fn given(services: &Services, lawful: &Lawful, out: Lent<u8>) -> Result<(Filled, Vec<u8>), String> {
    let (head, laws) = (lawful.head.clone(), lawful.laws.clone());
    let mut bytes = lent(out);
    let lent_bytes = &mut bytes[MARGIN..MARGIN + out.length];
    let answer = (services.fill_costs)(&head, &laws, lent_bytes);
    same("first part", &lawful.head, &head)?;
    same("laws", &lawful.laws, &laws)?;
    Ok((answer, bytes))
}
