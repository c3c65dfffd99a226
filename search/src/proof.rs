// A board and its model as the proved calls read them. Whatever the search says, a bound counts only where
// `planner_check_model` has passed the model that it was computed on.
use super::clock::Work;
use super::model::Model;
use super::short::exact_work;
use super::task::Task;
use crate::plan::Sides;
use planner::{Choices, Job, Kind, Plan, Planner, TrueSizes};

/// The most copies of a kind and the most kinds in a job block.
pub const MOST_COPIES: u32 = 255;
pub const MOST_KINDS: usize = 64;

/// The most that a price may be.
pub const MOST_PRICE: u64 = 1_000_000;

/// How the kinds of a task stand in a job block: more copies than a block takes are several kinds of it. Where they
/// would be too many, the last ones are left out: then the block has a part of the order.
#[derive(Clone, Debug, PartialEq, Eq)]
pub struct Entries {
    /// The kind of the task and the copies of each kind of the block.
    pub entries: Vec<(usize, u16)>,
    /// Whether all copies stand in it.
    pub whole: bool,
}

impl Entries {
    pub fn new(counts: &[u32]) -> Entries {
        let mut entries = Vec::new();
        // Round by round, so that every kind has an entry before any has two.
        for round in 0..counts.iter().map(|count| count.div_ceil(MOST_COPIES)).max().unwrap_or(0) {
            for (kind, count) in counts.iter().enumerate() {
                let left = count.saturating_sub(round * MOST_COPIES).min(MOST_COPIES);
                if left > 0 {
                    entries.push((kind, left as u16));
                }
            }
        }
        let whole = entries.len() <= MOST_KINDS;
        entries.truncate(MOST_KINDS);
        Entries { entries, whole }
    }
}

/// What a proved bound follows from: a model of the boards of a line of the stock, and a price and a multiplier for
/// each kind of the task, or weights, one a kind or two.
#[derive(Clone, Debug, Default, PartialEq, Eq)]
pub struct Modelled {
    pub stock: usize,
    pub model: Model,
    pub prices: Vec<u32>,
    pub multipliers: Vec<u32>,
    pub weights: [Vec<u8>; 2],
}

impl Modelled {
    /// Whether it has a line of the stock of this task and a size, and where there are some a price, a multiplier and
    /// weights, for each of its kinds.
    pub fn is_of(&self, task: &Task) -> bool {
        let kinds = task.kinds.len();
        let some = |length: usize| length == 0 || length == kinds;
        self.stock < task.stock.len()
            && self.model.sides.len() == kinds
            && some(self.prices.len())
            && some(self.multipliers.len())
            && self.weights.iter().all(|weights| some(weights.len()))
    }
}

/// A model and the true sizes that it stands for, as the calls read them.
#[derive(Clone, Debug, PartialEq, Eq)]
pub struct Basis {
    pub job: Job,
    pub choices: Choices,
    pub sizes: TrueSizes,
}

/// A board under prices, for the proved calls.
#[derive(Clone)]
pub struct Priced {
    pub model: Model,
    pub basis: Basis,
    pub entries: Entries,
    pub memory: u64,
}

/// What a call of the bound gives: the bound, and the copies of each kind of the task in the plan behind it, where
/// that plan is not too long.
pub struct Answer {
    pub bound: u64,
    pub copies: Option<Vec<f64>>,
}

impl Priced {
    /// A model of a board that passes its check; none where it does not stand for the true sizes.
    pub fn new(task: &Task, counts: &[u32], board: Sides, model: &Model, memory: u64) -> Option<Priced> {
        let entries = Entries::new(counts);
        let kind = |(kind, demand): &(usize, u16)| {
            let [length, width] = model.sides[*kind];
            Kind { length, width, price: 0, demand: *demand, grain: task.kinds[*kind].keeps_grain() }
        };
        let kinds = entries.entries.iter().map(kind).collect();
        let job = Job { length: model.plate[0], width: model.plate[1], kerf: 0, kinds };
        let sides = entries.entries.iter().map(|(kind, _)| task.kinds[*kind].sides).collect();
        let sizes = TrueSizes { length: board[0], width: board[1], kerf: task.kerf, kinds: sides };
        let basis = Basis { job, choices: task.choices(), sizes };
        basis.planner(memory).check_model(&basis.sizes).ok()?;
        Some(Priced { model: model.clone(), basis, entries, memory })
    }

    /// Whether every copy stands in the block.
    pub fn is_whole(&self) -> bool {
        self.entries.whole
    }

    /// Sets the prices of the task's kinds.
    pub fn set_prices(&mut self, prices: &[u32]) {
        for (kind, (of, _)) in self.basis.job.kinds.iter_mut().zip(&self.entries.entries) {
            kind.price = prices[*of];
        }
    }

    /// The bound under the prices, and the plan behind it.
    pub fn price(&self, kinds: usize, work: &mut Work) -> Option<Answer> {
        let mut planner = self.basis.planner(self.memory);
        let weights = self.basis.no_weights();
        match planner.write_plan(&weights) {
            Ok((bound, plan)) => {
                work.spend(fill_work(bound.lengths, bound.widths));
                let mut copies = vec![0.0; kinds];
                let entries = self.entries.entries.iter().zip(self.copies(&plan));
                entries.for_each(|((kind, _), of)| copies[*kind] += f64::from(of));
                Some(Answer { bound: bound.bound, copies: Some(copies) })
            }
            Err(_) => {
                let bound = planner.bound(&weights).ok()?;
                work.spend(2 * fill_work(bound.lengths, bound.widths));
                Some(Answer { bound: bound.bound, copies: None })
            }
        }
    }

    /// The copies of each kind of the block in a plan.
    pub fn copies(&self, plan: &Plan) -> Vec<u32> {
        let mut copies = vec![0; self.entries.entries.len()];
        for (node, operand) in plan.kinds.iter().zip(&plan.operands) {
            if matches!(node, 1 | 4) {
                copies[usize::from(*operand)] += 1;
            }
        }
        copies
    }

    /// Whether so many copies of each kind of the block are within the order.
    pub fn is_within(&self, copies: &[u32]) -> bool {
        self.entries.entries.iter().zip(copies).all(|((_, demand), copies)| *copies <= u32::from(*demand))
    }

    /// The copies of each kind of the block that the capacity counts: no more than the plate holds.
    pub fn counted(&self) -> Vec<u32> {
        let Basis { job, choices, .. } = &self.basis;
        let counted = |kind: &Kind| {
            let [length, width, of_length, of_width] =
                [job.length, job.width, kind.length, kind.width].map(u32::from);
            let fits = |length: u32, width: u32| of_length <= length && of_width <= width;
            let held = if choices.turning && !(choices.grain && kind.grain) {
                let either = fits(length, width) || fits(width, length);
                u32::from(either) * (length * width / (of_length * of_width))
            } else {
                (length / of_length) * (width / of_width)
            };
            held.min(u32::from(kind.demand))
        };
        job.kinds.iter().map(counted).collect()
    }

    /// The bound under one weight a kind of the block, or two.
    pub fn weighed(&self, weights: &[Vec<u8>; 2]) -> Option<u64> {
        let mut planner = self.basis.planner(self.memory);
        match &weights[1][..] {
            [] => Some(planner.bound(&weights[0]).ok()?.bound),
            second => Some(planner.bound_two(&weights[0], second).ok()?.bound),
        }
    }

    /// The Lagrangian bound with a multiplier for each kind of the task.
    pub fn lagrangian(&self, multipliers: &[u32]) -> Option<u64> {
        let multipliers = self.multipliers(multipliers);
        let mut planner = self.basis.planner(self.memory);
        Some(planner.bound_lagrangian(&self.basis.no_weights(), &multipliers).ok()?.bound)
    }

    /// About the work of the exact call; none where the order or its table is too long for it.
    pub fn exact_work(&self) -> Option<u64> {
        let (work, words) = exact_work(&self.basis)?;
        (words <= self.memory / 8).then_some(work)
    }

    /// The most that a plan of the model within the order earns, and a plan that earns it.
    pub fn exact(&self) -> Option<(u64, Plan)> {
        let (exact, plan) = self.basis.planner(self.memory).exact().ok()?;
        Some((exact.optimum, plan))
    }

    /// The least number of boards that hold the whole order beside others that hold no more than `other`, and the
    /// bound of one.
    pub fn plates_needed(&self, other: u64) -> Option<(u64, u64)> {
        let needed = self.basis.planner(self.memory).plates_needed(&self.basis.no_weights(), other).ok()?;
        Some((needed.plates, needed.bound))
    }

    fn multipliers(&self, multipliers: &[u32]) -> Vec<u32> {
        self.entries.entries.iter().map(|(kind, _)| multipliers[*kind]).collect()
    }
}

/// The work of a bound without weights on so many lengths and widths: cuts up to half of each side, several at a time,
/// and the table itself.
fn fill_work(lengths: u64, widths: u64) -> usize {
    (lengths * widths * (8 + (lengths + widths) / 8)) as usize
}

impl Basis {
    pub fn planner(&self, memory: u64) -> Planner {
        Planner::new(&self.job, self.choices, memory)
    }

    pub fn no_weights(&self) -> Vec<u8> {
        vec![0; self.job.kinds.len()]
    }
}
