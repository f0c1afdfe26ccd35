//! Costs filled in from laws (document 02, M-101): the library, and its way in Rust, against the second planner, byte for byte.
//! Then all services on what was filled in, against the planner that tries all plans and looks each time up in its law.

use std::ops::Range;

use reference::answer::Filled;
use reference::cases::laws::{self as cases, LAW_KINDS, LawCase, LawKind};
use reference::compare::{self, Difference};
use reference::costs::{self, Key, MOST_CORES, MOST_TASKS, RECORD_BYTES};
use reference::damage::laws::{self as damage, LAW_DAMAGES, LawDamage};
use reference::filling;
use reference::laws::{self, LAW_BYTES, Law, Laws};
use reference::round::laws as round;
use reference::services::{LIBRARY, REFERENCE, Services};
use reference::tally::Tally;

const OF_EACH_KIND: usize = 4_000;
const OF_EACH_DAMAGE: usize = 3_000;

/// The seeds of the small laws.
fn seeds() -> Range<u64> {
    0..(OF_EACH_KIND * LAW_KINDS.len()) as u64
}

/// The library's way in Rust.
const IN_RUST: Services = Services {
    fill_costs: filling::fill_costs,
    ..REFERENCE
};

fn fail(case: &LawCase, difference: &Difference) -> ! {
    compare::fail(
        case.seed,
        &[&case.head[..], &case.laws].concat(),
        difference,
    )
}

/// The answer and what was filled in, if the library and its way in Rust both do as the second planner does.
fn same(
    case: &LawCase,
    compared: impl Fn(&Services) -> Result<(Filled, Vec<u8>), Difference>,
) -> (Filled, Vec<u8>) {
    match compared(&IN_RUST).and_then(|_| compared(&LIBRARY)) {
        Ok(filled) => filled,
        Err(difference) => fail(case, &difference),
    }
}

/// Into as much room as the seed says.
fn filled(case: &LawCase) -> (Filled, Vec<u8>) {
    same(case, |found| round::answered(&REFERENCE, found, case))
}

/// Into so many bytes.
fn filled_into(room: usize, case: &LawCase) -> Filled {
    let lent = (&case.head[..], &case.laws[..]);
    let (answer, _) = same(case, |found| {
        compare::fill_costs(&REFERENCE, found, lent, room, case.seed)
    });
    answer
}

/// How often each thing is to be met where costs that were filled in are planned.
const PLANNED: [(&str, usize); 22] = [
    ("best plan: refusal 9", 1_000),
    ("best plan: several modules", 3_500),
    ("best plan: more than two modules", 1_200),
    ("best plan: several copies of the slowest", 3_500),
    ("best plan: bottleneck not a whole number", 2_500),
    ("best plan: D in the slowest's response", 1_800),
    ("judge: D in the slowest's response", 3_000),
    ("greedy plan: several modules", 40_000),
    ("greedy plan: refusal 11", 40_000),
    ("judge: figures", 12_000),
    ("judge: several copies of the slowest", 1_500),
    ("reach: 0", 300),
    ("reach: the first task itself", 380),
    ("reach: in the middle", 85),
    ("reach: one short of k", 440),
    ("reach: k", 17_000),
    ("greedy plan: refusal 11, not by needs added up", 600),
    ("judge: refusal 14, not by needs added up", 450),
    (
        "block time: more than the slowest response, several modules",
        50_000,
    ),
    ("reach: shorter than by needs added up", 500),
    ("timetable: several modules", 28_000),
    ("timetable: both wait", 5_400),
];

#[test]
fn filled_in_and_planned() {
    let mut tally = Tally::default();
    for case in seeds().map(cases::small) {
        let (answer, costs) = filled(&case);
        tally.add(round::named(answer));
        tally.add(format!("{:?}, {}", case.kind, round::named(answer)));
        if answer.refusal != 0 {
            continue;
        }
        if let Err(difference) = round::planned(&LIBRARY, &case, costs, &mut tally) {
            fail(&case, &difference);
        }
    }
    tally.print("small laws, library against reference");
    for kind in LAW_KINDS {
        assert_answers(kind, &tally);
    }
    for (what, least) in PLANNED {
        tally.assert_at_least(what, least);
    }
}

/// The kinds that are named for values that are too great are refused with 18, whatever the room. No others are: five rooms in
/// eight are enough for these.
fn assert_answers(kind: LawKind, tally: &Tally) {
    let count = |answer: &str| tally.count(&format!("{kind:?}, fill costs: {answer}"));
    let (above, short) = (count("refusal 18"), count("refusal 19"));
    let enough = count("filled in");
    match kind {
        LawKind::Above | LawKind::Wrapping => assert_eq!(above, OF_EACH_KIND, "{kind:?}"),
        // of the random coefficients, one now and then is small
        LawKind::Huge => assert!(above >= OF_EACH_KIND - 10, "{kind:?}: {above}"),
        _ => {
            assert_eq!(enough + short, OF_EACH_KIND, "{kind:?}");
            assert!(enough >= OF_EACH_KIND * 9 / 16, "{kind:?}: {enough}");
            assert!(short >= OF_EACH_KIND * 5 / 16, "{kind:?}: {short}");
        }
    }
}

/// Where the only value above 1,000,000 is, on a board of several cores.
fn only_above(case: &LawCase) -> Option<String> {
    let (chain, laws) = laws::read(&case.head, &case.laws).expect("due records");
    let entries = laws::entries(Law::value, &chain, &laws);
    let above: Vec<Key> = entries
        .iter()
        .filter(|&&entry| laws::is_above(&[entry]))
        .map(|entry| entry.key)
        .collect();
    let end = |cores: u8| match usize::from(cores) {
        1 => "1",
        p if p == chain.cores => "P",
        _ => "between",
    };
    match above[..] {
        [Key { kind: 5, a, b, .. }] if chain.cores > 1 => {
            Some(format!("kind 5 at ({}, {}) alone", end(a), end(b)))
        }
        [Key { kind, a, .. }] if chain.cores > 1 => {
            Some(format!("kind {kind} at {} alone", end(a)))
        }
        _ => None,
    }
}

/// Of the small laws of the kind Above, many are above 1,000,000 at each end of the cores alone, and at each corner alone.
#[test]
fn above_at_every_end() {
    let mut tally = Tally::default();
    let files = seeds().map(cases::small);
    for case in files.filter(|case| case.kind == LawKind::Above) {
        let place = only_above(&case);
        tally.add(place.unwrap_or("several, or one core".to_string()));
    }
    tally.print("where small laws of the kind Above are above");
    for (place, least) in [
        ("kind 3 at 1 alone", 400),
        ("kind 3 at P alone", 400),
        ("kind 4 at 1 alone", 180),
        ("kind 4 at P alone", 180),
        ("kind 5 at (1, 1) alone", 100),
        ("kind 5 at (1, P) alone", 100),
        ("kind 5 at (P, 1) alone", 100),
        ("kind 5 at (P, P) alone", 100),
    ] {
        tally.assert_at_least(place, least);
    }
}

/// The second planner's two ways to the same costs: reading what it filled in, and looking times up in the laws.
#[test]
fn read_as_the_laws_say() {
    for seed in 0..800 {
        let case = cases::small(seed);
        let mut out = vec![0; round::full_bytes(&case.head)];
        let answer = (REFERENCE.fill_costs)(&case.head, &case.laws, &mut out);
        match laws::chain(&case.head, &case.laws) {
            Err(refusal) => assert_eq!(answer, refusal.into()),
            Ok(chain) => {
                assert_eq!(costs::write(&chain), out);
                assert_eq!(costs::write(&costs::read(&out).expect("accepted")), out);
            }
        }
    }
}

/// Each k and P is filled in where just enough is lent: "1 + k + kP + (k − 1)P + (k − 1)P² records".
#[test]
fn every_size() {
    let mut seed = 0;
    for k in 1..=MOST_TASKS {
        for p in 1..=MOST_CORES {
            let records = 1 + k + k * p + (k - 1) * p + (k - 1) * p * p;
            let bytes = records * RECORD_BYTES;
            let due = Filled::counted(bytes as u32);
            for kind in [LawKind::Realistic, LawKind::Remainders, LawKind::Brim] {
                let case = cases::sized(kind, k, p, seed);
                assert_eq!(filled_into(bytes, &case), due, "{kind:?}, k = {k}, P = {p}");
                seed += 1;
            }
        }
    }
}

#[test]
fn most_tasks_and_cores() {
    let mut tally = Tally::default();
    for seed in 0..40 {
        let kind = LAW_KINDS[seed as usize % LAW_KINDS.len()];
        let (answer, _) = filled(&cases::sized(kind, MOST_TASKS, MOST_CORES, seed));
        tally.add(round::named(answer));
    }
    tally.print("12 tasks, 32 cores");
    for (what, least) in [("filled in", 12), ("refusal 18", 15), ("refusal 19", 4)] {
        tally.assert_at_least(&format!("fill costs: {what}"), least);
    }
}

/// What each damage leads to, and how often at least. Without a damage no laws are refused with 1 to 17, and with 18 those of
/// three kinds in eight.
const LEADS_TO: [(LawDamage, u32, usize); 19] = [
    (LawDamage::Kind, 17, 2_400),
    (LawDamage::Task, 17, OF_EACH_DAMAGE),
    (LawDamage::Form, 17, 2_000),
    (LawDamage::Zero, 17, OF_EACH_DAMAGE),
    (LawDamage::Unused, 17, 2_000),
    (LawDamage::AnyByte, 17, 1_200),
    (LawDamage::Length, 17, OF_EACH_DAMAGE),
    (LawDamage::SwappedRecords, 17, 1_800),
    (LawDamage::RepeatedRecord, 17, 1_800),
    (LawDamage::Above, 18, OF_EACH_DAMAGE),
    (LawDamage::Head, 1, 350),
    (LawDamage::Head, 2, 200),
    (LawDamage::Head, 3, 230),
    (LawDamage::Head, 4, 270),
    (LawDamage::Head, 5, 270),
    (LawDamage::Head, 6, 350),
    (LawDamage::WholeFile, 4, OF_EACH_DAMAGE),
    (LawDamage::Several, 4, 450),
    (LawDamage::Several, 17, 1_600),
];

#[test]
fn damaged_laws() {
    let mut tally = Tally::default();
    for seed in 0..(OF_EACH_DAMAGE * LAW_DAMAGES.len()) as u64 {
        // many seeds in a row, so that each damage meets laws of all kinds
        let damage = LAW_DAMAGES[seed as usize / OF_EACH_DAMAGE];
        let (answer, _) = filled(&damage::small(seed, damage));
        tally.add(round::named(answer));
        tally.add(format!("{damage:?}, {}", round::named(answer)));
    }
    tally.print("damaged laws");
    for damage in LAW_DAMAGES {
        assert!(LEADS_TO.iter().any(|led| led.0 == damage), "{damage:?}");
    }
    for (damage, refusal, least) in LEADS_TO {
        tally.assert_at_least(&format!("{damage:?}, fill costs: refusal {refusal}"), least);
    }
    for (what, least) in [("filled in", 1_500), ("refusal 19", 900)] {
        tally.assert_at_least(&format!("fill costs: {what}"), least);
    }
}

/// Laws of every form, for so many tasks and cores.
fn some_laws(tasks: u32, cores: usize) -> LawCase {
    let of_odd = |t, law| if t % 2 == 1 { law } else { Law::Constant(7) };
    let executions = (1..=tasks).map(|t| of_odd(t, Law::Three([1, 5, 2])));
    let internals = (1..tasks).map(|t| of_odd(t, Law::Three([0, 3, 0])));
    let externals = (1..tasks).map(|t| of_odd(t, Law::Five([2, 3, 5, 1, 4])));
    let laws = Laws {
        executions: executions.collect(),
        internals: internals.collect(),
        externals: externals.collect(),
    };
    LawCase {
        laws: laws.write(),
        ..cases::sized(LawKind::Few, tasks as usize, cores, 0)
    }
}

const SOME_SIZES: [(u32, usize); 3] = [(1, 3), (2, 2), (3, 2)];

/// Each byte with each value; into as much as was due before, as much as is due by the changed first part, and one byte less
/// than each.
#[test]
fn every_byte() {
    for case in SOME_SIZES.map(|(tasks, cores)| some_laws(tasks, cores)) {
        let first_part = case.head.len();
        for i in 0..first_part + case.laws.len() {
            for value in 0..=255 {
                let mut changed = case.clone();
                changed.seed = 256 * i as u64 + u64::from(value);
                match i.checked_sub(first_part) {
                    None => changed.head[i] = value,
                    Some(i) => changed.laws[i] = value,
                }
                for due in [&case, &changed].map(|case| round::full_bytes(&case.head)) {
                    filled_into(due, &changed);
                    filled_into(due - 1, &changed);
                }
            }
        }
    }
}

/// Every length up to a little more than is due, and two that are the same to whoever counts in 8 or 16 bits.
fn lengths(due: usize, more: usize) -> impl Iterator<Item = usize> {
    (0..=due + more).chain([due + (1 << 8), due + (1 << 16)])
}

/// First part and laws, each length of the one with each of the other; then the output.
#[test]
fn every_length() {
    for whole in SOME_SIZES.map(|(tasks, cores)| some_laws(tasks, cores)) {
        let due = round::full_bytes(&whole.head);
        for head in lengths(whole.head.len(), RECORD_BYTES + 1) {
            for laws in lengths(whole.laws.len(), LAW_BYTES + 1) {
                let mut case = whole.clone();
                case.seed = (head + laws) as u64;
                case.head.resize(head, 2);
                case.laws.resize(laws, 0);
                filled_into(due, &case);
            }
        }
        for room in lengths(due, RECORD_BYTES + 1).chain([1 << 8, 1 << 16]) {
            let seed = room as u64;
            let answer = filled_into(
                room,
                &LawCase {
                    seed,
                    ..whole.clone()
                },
            );
            let refusal = if room < due { 19 } else { 0 };
            assert_eq!(answer.refusal, refusal, "{room} bytes lent");
        }
    }
}
