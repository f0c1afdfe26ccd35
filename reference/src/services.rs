//! The services under one name each, so that any two providers of them can be compared.

use crate::answer::{Answer, Filled};
use crate::costs::Chain;
use crate::plan::PLAN_BYTES;
use crate::{block_time, every, greedy, judge, laws, library, reach, threshold, timetable};

/// A provider of document 01's three services, and of document 02's.
#[derive(Clone, Copy)]
pub struct Services {
    pub judge: fn(&[u8], &[u8]) -> Answer,
    pub greedy_plan: fn(&[u8], u16, &mut [u8]) -> Answer,
    pub best_plan: fn(&[u8], &mut [u8], &mut [u32]) -> Answer,
    /// First part, laws, output.
    pub fill_costs: fn(&[u8], &[u8], &mut [u8]) -> Filled,
    /// Costs, first task.
    pub reach: fn(&[u8], u8) -> Filled,
    /// Costs, plan bytes.
    pub block_time: fn(&[u8], &[u8]) -> Filled,
    /// Costs, plan bytes, blocks, table.
    pub timetable: fn(&[u8], &[u8], u32, &mut [u64]) -> Filled,
}

/// What the services are to answer; its Best plan tries all plans and is for small files.
pub const REFERENCE: Services = Services {
    judge: judge::judge,
    greedy_plan: greedy::greedy_plan,
    best_plan: every::best_plan,
    fill_costs: laws::fill_costs,
    reach: reach::reach,
    block_time: block_time::block_time,
    timetable: timetable::timetable,
};

/// The same for files of any size, with the threshold search.
pub const QUICK_REFERENCE: Services = Services {
    best_plan: threshold::best_plan,
    ..REFERENCE
};

/// The same for tables that end early: the clock of the machine leaves no tick out.
pub const TICK_BY_TICK: Services = Services {
    timetable: timetable::timetable_tick_by_tick,
    ..REFERENCE
};

/// The static library.
pub const LIBRARY: Services = Services {
    judge: library::judge,
    greedy_plan: library::greedy_plan,
    best_plan: library::best_plan,
    fill_costs: library::fill_costs,
    reach: library::reach,
    block_time: library::block_time,
    timetable: library::timetable,
};

impl Services {
    /// Its services on these bytes.
    pub fn on(self, costs: &[u8]) -> OnBytes<'_> {
        let services = self;
        OnBytes { services, costs }
    }

    /// Whether it finds a plan that keeps the rules.
    pub fn has_plan(self, costs: &[u8]) -> bool {
        self.best_filled(costs).0.refusal == 0
    }

    /// What Best plan answers and fills in, where the bytes and words lent are zero and just enough.
    pub fn best_filled(self, costs: &[u8]) -> (Answer, [u8; PLAN_BYTES]) {
        let (mut plan, mut work) = ([0; PLAN_BYTES], vec![0; every::WORK_WORDS]);
        let answer = (self.best_plan)(costs, &mut plan, &mut work);
        (answer, plan)
    }
}

/// The services on costs that are settled: document 01's three, the reach of a first task, and the single-block time and the
/// timetable of a plan.
pub trait Planner {
    fn judge(&self, plan: &[u8]) -> Answer;
    fn greedy_plan(&self, grouping: u16, plan: &mut [u8]) -> Answer;
    fn best_plan(&self, plan: &mut [u8], work: &mut [u32]) -> Answer;
    fn reach(&self, first: u8) -> Filled;
    fn block_time(&self, plan: &[u8]) -> Filled;
    fn timetable(&self, plan: &[u8], blocks: u32, table: &mut [u64]) -> Filled;
}

/// A provider and the bytes of cost records, accepted or not.
pub struct OnBytes<'a> {
    services: Services,
    costs: &'a [u8],
}

impl Planner for OnBytes<'_> {
    fn judge(&self, plan: &[u8]) -> Answer {
        (self.services.judge)(self.costs, plan)
    }

    fn greedy_plan(&self, grouping: u16, plan: &mut [u8]) -> Answer {
        (self.services.greedy_plan)(self.costs, grouping, plan)
    }

    fn best_plan(&self, plan: &mut [u8], work: &mut [u32]) -> Answer {
        (self.services.best_plan)(self.costs, plan, work)
    }

    fn reach(&self, first: u8) -> Filled {
        (self.services.reach)(self.costs, first)
    }

    fn block_time(&self, plan: &[u8]) -> Filled {
        (self.services.block_time)(self.costs, plan)
    }

    fn timetable(&self, plan: &[u8], blocks: u32, table: &mut [u64]) -> Filled {
        (self.services.timetable)(self.costs, plan, blocks, table)
    }
}

/// The second planner without bytes of costs. A chain that has laws is planned from these.
impl Planner for Chain {
    fn judge(&self, plan: &[u8]) -> Answer {
        judge::judge_on(self, plan)
    }

    fn greedy_plan(&self, grouping: u16, plan: &mut [u8]) -> Answer {
        greedy::greedy_plan_on(self, grouping, plan)
    }

    fn best_plan(&self, plan: &mut [u8], work: &mut [u32]) -> Answer {
        every::best_plan_on(self, plan, work)
    }

    fn reach(&self, first: u8) -> Filled {
        reach::reach_on(self, first)
    }

    fn block_time(&self, plan: &[u8]) -> Filled {
        block_time::block_time_on(self, plan)
    }

    fn timetable(&self, plan: &[u8], blocks: u32, table: &mut [u64]) -> Filled {
        timetable::timetable_on(self, plan, blocks, table)
    }
}
