//! The static library's services (document 01's three, and document 02's), called over slices.

use crate::answer::{Answer, Filled};

// A slice is a pointer and a count of elements. The library reads and writes what is lent and nothing else, and keeps no
// pointer; lent slices do not overlap.
unsafe extern "C" {
    fn zombreki_judge(
        costs: *const u8,
        costs_len: usize,
        plan: *const u8,
        plan_len: usize,
    ) -> Answer;
    fn zombreki_greedy_plan(
        costs: *const u8,
        costs_len: usize,
        grouping: u16,
        plan: *mut u8,
        plan_len: usize,
    ) -> Answer;
    fn zombreki_best_plan(
        costs: *const u8,
        costs_len: usize,
        plan: *mut u8,
        plan_len: usize,
        work: *mut u32,
        work_len: usize,
    ) -> Answer;
    fn zombreki_fill_costs(
        head: *const u8,
        head_len: usize,
        laws: *const u8,
        laws_len: usize,
        out: *mut u8,
        out_len: usize,
    ) -> Filled;
    fn zombreki_reach(costs: *const u8, costs_len: usize, first: u8) -> Filled;
    fn zombreki_block_time(
        costs: *const u8,
        costs_len: usize,
        plan: *const u8,
        plan_len: usize,
    ) -> Filled;
    fn zombreki_timetable(
        costs: *const u8,
        costs_len: usize,
        plan: *const u8,
        plan_len: usize,
        n: u32,
        table: *mut u64,
        table_len: usize,
    ) -> Filled;
}

pub fn judge(costs: &[u8], plan: &[u8]) -> Answer {
    // SAFETY: pointers and lengths are those of live slices, which may be read.
    unsafe { zombreki_judge(costs.as_ptr(), costs.len(), plan.as_ptr(), plan.len()) }
}

pub fn greedy_plan(costs: &[u8], grouping: u16, plan: &mut [u8]) -> Answer {
    // SAFETY: pointers and lengths are those of live slices; the plan is lent for writing and does not overlap the costs.
    unsafe {
        zombreki_greedy_plan(
            costs.as_ptr(),
            costs.len(),
            grouping,
            plan.as_mut_ptr(),
            plan.len(),
        )
    }
}

pub fn best_plan(costs: &[u8], plan: &mut [u8], work: &mut [u32]) -> Answer {
    // SAFETY: pointers and lengths are those of live slices; plan and work are lent for writing, and none overlap.
    unsafe {
        zombreki_best_plan(
            costs.as_ptr(),
            costs.len(),
            plan.as_mut_ptr(),
            plan.len(),
            work.as_mut_ptr(),
            work.len(),
        )
    }
}

pub fn fill_costs(head: &[u8], laws: &[u8], out: &mut [u8]) -> Filled {
    // SAFETY: pointers and lengths are those of live slices; the output is lent for writing, and none overlap.
    unsafe {
        zombreki_fill_costs(
            head.as_ptr(),
            head.len(),
            laws.as_ptr(),
            laws.len(),
            out.as_mut_ptr(),
            out.len(),
        )
    }
}

pub fn reach(costs: &[u8], first: u8) -> Filled {
    // SAFETY: pointer and length are those of a live slice, which may be read.
    unsafe { zombreki_reach(costs.as_ptr(), costs.len(), first) }
}

pub fn block_time(costs: &[u8], plan: &[u8]) -> Filled {
    // SAFETY: pointers and lengths are those of live slices, which may be read.
    unsafe { zombreki_block_time(costs.as_ptr(), costs.len(), plan.as_ptr(), plan.len()) }
}

pub fn timetable(costs: &[u8], plan: &[u8], blocks: u32, table: &mut [u64]) -> Filled {
    // SAFETY: pointers and lengths are those of live slices; the table is lent for writing, and none overlap.
    unsafe {
        zombreki_timetable(
            costs.as_ptr(),
            costs.len(),
            plan.as_ptr(),
            plan.len(),
            blocks,
            table.as_mut_ptr(),
            table.len(),
        )
    }
}

#[cfg(test)]
mod tests {
    use super::*;
    use crate::answer::Refusal;
    use crate::cases::constant;
    use crate::costs::{self, Chain};
    use crate::laws::Law;
    use crate::plan::{self, PLAN_BYTES};
    use crate::reach::of_one_core;
    use std::ptr::{null, null_mut};

    /// The pointer of an empty slice is not looked at.
    #[test]
    fn empty_slices_may_have_any_pointer() {
        // SAFETY: nothing can be read or written through pointers with a count of 0.
        let answers = unsafe {
            [
                zombreki_judge(null(), 0, null(), 0),
                zombreki_greedy_plan(null(), 0, 0, null_mut(), 0),
                zombreki_best_plan(null(), 0, null_mut(), 0, null_mut(), 0),
            ]
        };
        for answer in answers {
            assert_eq!((answer.refusal, answer.place), (1, 0));
        }
        // SAFETY: the same.
        let filled = unsafe {
            [
                zombreki_fill_costs(null(), 0, null(), 0, null_mut(), 0),
                zombreki_reach(null(), 0, 0),
                zombreki_reach(null(), 0, 1),
                zombreki_block_time(null(), 0, null(), 0),
                zombreki_timetable(null(), 0, null(), 0, 0, null_mut(), 0),
                zombreki_timetable(null(), 0, null(), 0, 1, null_mut(), 0),
            ]
        };
        assert_eq!(filled, [Refusal::new(1).into(); 6]);
        // SAFETY: the same, beside costs and a plan that are live.
        let refused = unsafe {
            let (costs, plan) = (ONE_TASK.as_flattened(), whole_plan());
            let lent = (costs.as_ptr(), costs.len());
            [
                zombreki_timetable(lent.0, lent.1, null(), 0, 1, null_mut(), 0),
                zombreki_timetable(lent.0, lent.1, plan.as_ptr(), plan.len(), 1, null_mut(), 0),
            ]
        };
        assert_eq!(refused, [7, 21].map(|number| Refusal::new(number).into()));
    }

    /// One task on one core that takes 5.
    const ONE_TASK: [[u8; 8]; 3] = [
        [1, 0, 1, 1, 1, 0, 0, 0],
        [2, 1, 1, 0, 0, 0, 0, 0],
        [3, 1, 1, 0, 5, 0, 0, 0],
    ];

    /// Its plan of one copy.
    fn whole_plan() -> [u8; PLAN_BYTES] {
        plan::encode(&[of_one_core(1, 1)])
    }

    #[test]
    fn accepted_costs_with_empty_slices() {
        let costs = ONE_TASK.as_flattened();
        assert_eq!(judge(costs, &[]).refusal, 7);
        assert_eq!(block_time(costs, &[]), Refusal::new(7).into());
        assert_eq!(timetable(costs, &[], 0, &mut []), Refusal::new(7).into());
        assert_eq!(timetable(costs, &[], 1, &mut [9]), Refusal::new(7).into());
        assert_eq!(greedy_plan(costs, 0, &mut []).refusal, 7);
        assert_eq!(best_plan(costs, &mut [], &mut []).refusal, 7);
        assert_eq!(best_plan(costs, &mut [0; 48], &mut []).refusal, 8);
        let table_of = |blocks| timetable(costs, &whole_plan(), blocks, &mut []);
        assert_eq!([0, 1, 1_000].map(table_of), [Refusal::new(21).into(); 3]);
        let (head, law) = (&costs[..16], Law::Constant(5).encode(3, 1));
        assert_eq!(fill_costs(head, &[], &mut []).refusal, 17);
        assert_eq!(fill_costs(head, &law, &mut []).refusal, 19);
    }

    /// Two tasks that need 2 and 1 on one core of 2: each by itself, not both.
    #[test]
    fn reaches_of_accepted_costs() {
        let costs = costs::write(&Chain {
            capacity: 2,
            needs: vec![2, 1],
            ..constant(2, 1, 5)
        });
        let reached = |first| reach(&costs, first);
        let due = [0, 1, 2, 0, 0].map(Filled::counted);
        assert_eq!([0, 1, 2, 3, 255].map(reached), due);
    }
}
