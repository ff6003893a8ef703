//! Document 02, request m: a text of plans that comes in pieces. What the documents leave open, the room that a call asks
//! for and what comes of figures that no text leads to, is as the contracts say; sentences marked (contract) are those of
//! `plan_report/specs` and of what they cite.

use super::part::Part;
use super::pieces::{Outcome, Plan};
use super::plan_report::{add, after_slot, print_plan, print_total, Figures};
use super::refusal;

/// "A line has a byte at least, its line feed, and prints 110 at the most." (contract)
pub const LINE: usize = 110;

/// "The last plan's line and the totals take 200 bytes at the most." (contract)
pub const END: usize = 200;

/// A report as far as it has come.
#[derive(Clone)]
pub struct Report {
    /// How many plans have ended.
    pub plans: u64,
    /// The plan that runs, and its figures.
    pub plan: Plan,
    pub figures: Figures,
    /// By which number a line of it was refused; 0 for none.
    pub fault: u32,
    pub totals: Figures,
    /// What has come of the next line.
    pub part: Part,
}

impl Report {
    /// Before the first line, where this is a plan before line one.
    pub fn new(plan: Plan) -> Report {
        Report { plans: 0, plan, figures: [0; 4], fault: 0, totals: [0; 4], part: Part::new() }
    }

    /// A line of a plan. "After the first refusal a plan is passed over."; figures are raised "up to the last one of 64
    /// bits" (contract).
    fn run(&mut self, line: &[u8]) {
        let passed_over = self.plan.over;
        self.plan.run(line);
        let fault = match self.plan.outcome {
            Outcome::Quiet => 0,
            Outcome::Slot(_) => {
                let more = after_slot(&self.plan.nodes().expect("a slot leaves a table"));
                self.figures.iter_mut().zip(more).for_each(|(sum, more)| *sum = sum.saturating_add(more));
                0
            }
            Outcome::Refused(number) => number,
        };
        if !passed_over {
            self.fault = fault;
        }
    }

    /// The totals with the plan that ends, or the line and the number of its refusal. "A plan without lines .. is refused
    /// with 12 in line 1"; one that ends within a line, at that line.
    fn sums(&self, begun: bool) -> Result<Figures, (u64, u32)> {
        if self.plan.over {
            return Err((self.plan.lines, self.fault));
        }
        if self.plan.lines == 0 || begun {
            return Err((self.plan.next_line(), refusal::LINE));
        }
        let mut totals = self.totals;
        add(&mut totals, &self.figures).map_err(|number| (self.plan.lines, number))?;
        Ok(totals)
    }

    /// A plan ends, and the next is before line one. The count of plans stops at the last number of 64 bits. (contract)
    fn end_plan(&mut self, begun: bool, out: &mut Vec<u8>) {
        let sums = self.sums(begun);
        let plans = self.plans.saturating_add(1);
        print_plan(plans, sums.map(|_| self.figures), out);
        let plan = Plan::new(self.plan.none, self.plan.rows.len());
        let totals = sums.unwrap_or(self.totals);
        *self = Report { plans, totals, part: self.part.clone(), ..Report::new(plan) };
    }

    fn end_line(&mut self, out: &mut Vec<u8>) {
        match &self.part.end()[..] {
            b"next" => self.end_plan(false, out),
            line => self.run(line),
        }
    }

    /// What is printed of a piece into `room` bytes: 4 where the plan cannot go on, then 9.
    pub fn feed(&mut self, piece: &[u8], room: usize) -> Result<Vec<u8>, u32> {
        self.plan.check()?;
        if room < LINE * piece.len() {
            return Err(refusal::OUTPUT);
        }
        let mut out = Vec::new();
        for (i, part) in piece.split(|&byte| byte == b'\n').enumerate() {
            if i > 0 {
                self.end_line(&mut out);
            }
            self.part.keep(part);
        }
        Ok(out)
    }

    /// "also after a last `next`": where the input ends, a plan does.
    pub fn finish(&self, room: usize) -> Result<Vec<u8>, u32> {
        if room < END {
            return Err(refusal::OUTPUT);
        }
        let mut out = Vec::new();
        let mut ended = self.clone();
        ended.end_plan(self.part.length > 0, &mut out);
        print_total(&ended.totals, &mut out);
        Ok(out)
    }
}
