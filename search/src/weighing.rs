// Bounds under weights that a small integer program finds (Algorithms X and X2): every plan met that passes a demand is
// kept out by weights of least capacity, of one a kind, then of two. The tables are scanned for plans that keep the
// order. A verdict rests on the proved bound under the weights that are found.
use super::clock::Work;
use super::proof::Priced;
use super::table::Filled;
use super::weights::Barred;
use planner::Plan;

/// The greatest capacity of one weight, and the most pairs of shares of two.
const MOST_CAPACITY: u32 = 400;
const MOST_SHARES: u32 = 4_000;

/// Rounds with one weight a kind at most, and with two.
const ROUNDS: usize = 60;

/// A scan and a search for weights take at most this part of the work that is left.
const PART: i64 = 8;

/// A bound and the weights that give it; the second are empty where there is one a kind.
#[derive(Clone, Debug)]
pub struct Weighed {
    pub bound: u64,
    pub weights: [Vec<u8>; 2],
}

/// Plans that are kept out, in a group for each weight, the weights, and what came of them.
struct Weighing<'a> {
    priced: &'a Priced,
    judge: &'a mut dyn FnMut(&Plan) -> u64,
    /// The worth of the best plan known.
    worth: u64,
    groups: [Barred; 2],
    weights: [Vec<u8>; 2],
    best: Option<Weighed>,
    /// The work of the last table, and its shares.
    filled: (u64, u64),
}

/// The least bound under weights that is found. `judge` is given plans of the model that may be worth more than what is
/// known, and says what each is worth truly.
pub fn weighed(
    priced: &Priced,
    worth: u64,
    judge: &mut dyn FnMut(&Plan) -> u64,
    work: &mut Work,
) -> Option<Weighed> {
    let group = Barred { counted: priced.counted(), plans: Vec::new() };
    let weights = [vec![0; group.counted.len()], Vec::new()];
    let groups = [group.clone(), group];
    let mut weighing = Weighing { priced, judge, worth, groups, weights, best: None, filled: (0, 1) };
    if !weighing.with_one(work) {
        weighing.with_two(work);
    }
    weighing.best
}

impl Weighing<'_> {
    /// Rounds with one weight a kind; whether nothing is left to be done.
    fn with_one(&mut self, work: &mut Work) -> bool {
        for _ in 0..ROUNDS {
            match self.round(work) {
                None => return false,
                Some(None) => return true,
                Some(Some(plan)) => self.groups[0].plans.push(plan),
            }
            let part = work.left() / PART;
            match work.with_part(part, |work| self.groups[0].weights(MOST_CAPACITY, work)) {
                None => return false,
                Some(weights) => self.weights[0] = weights,
            }
        }
        false
    }

    /// Rounds with two: every plan is put to the weights that keep it out with the fewer shares.
    fn with_two(&mut self, work: &mut Work) {
        let none = vec![0; self.weights[0].len()];
        self.weights = [none.clone(), none];
        let met = std::mem::take(&mut self.groups[0].plans);
        if met.into_iter().any(|plan| self.keep_out(plan, work).is_none()) {
            return;
        }
        for _ in 0..ROUNDS {
            let Some(Some(plan)) = self.round(work) else { return };
            if self.keep_out(plan, work).is_none() {
                return;
            }
        }
    }

    /// Puts a plan to one of the groups, if neither keeps it out already.
    fn keep_out(&mut self, plan: Vec<u32>, work: &mut Work) -> Option<()> {
        if (0..2).any(|of| self.groups[of].keeps_out(&self.weights[of], &plan)) {
            return Some(());
        }
        let mut least: Option<(u32, usize, Vec<u8>)> = None;
        for of in 0..2 {
            let mut group = self.groups[of].clone();
            group.plans.push(plan.clone());
            let other = self.groups[1 - of].capacity(&self.weights[1 - of]) + 1;
            let part = work.left() / PART;
            let weights = work.with_part(part, |work| group.weights(MOST_SHARES / other, work));
            let shares = weights.as_ref().map_or(u32::MAX, |weights| (group.capacity(weights) + 1) * other);
            if least.as_ref().is_none_or(|least| shares < least.0) {
                least = weights.map(|weights| (shares, of, weights)).or(least);
            }
        }
        let (_, of, weights) = least?;
        self.groups[of].plans.push(plan);
        self.weights[of] = weights;
        Some(())
    }

    /// Fills the table under the weights and has the plans behind it judged. None where that takes too long; else the
    /// copies of the plan behind the bound, if it passes a demand and more may be worth it.
    fn round(&mut self, work: &mut Work) -> Option<Option<Vec<u32>>> {
        let shares = (0..2).map(|of| match &self.weights[of][..] {
            [] => 1,
            weights => u64::from(self.groups[of].capacity(weights)) + 1,
        });
        let (shares, (before, fewer)) = (shares.product::<u64>(), self.filled);
        let growth = (shares / fewer.max(1) + 1).pow(2);
        if !work.has_call(before.saturating_mul(growth)) {
            return None;
        }
        let filled = Filled::new(&self.priced.basis, &self.weights, self.priced.memory)?;
        self.filled = (filled.work(), shares);
        work.spend(self.filled.0 as usize);
        if self.best.as_ref().is_none_or(|best| filled.bound < best.bound) {
            self.best = Some(Weighed { bound: filled.bound, weights: self.weights.clone() });
        }
        let plan = filled.plan(work);
        let copies = self.priced.copies(&plan);
        self.worth = self.worth.max((self.judge)(&plan));
        if self.best.as_ref().is_some_and(|best| best.bound <= self.worth) || self.priced.is_within(&copies) {
            return Some(None);
        }
        let (part, worth) = (work.left() / PART, self.worth);
        self.worth = work.with_part(part, |work| filled.scan(worth, self.judge, work));
        Some(Some(copies))
    }
}
