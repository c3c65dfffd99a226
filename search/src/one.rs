// One board: the panels of the order that are worth most together, and the most that any plan of it is worth.
use super::board::Board;
use super::bound::lagrange;
use super::clock::{Clock, Work, SECOND};
use super::dice::Dice;
use super::model::Problem;
use super::pack::{first, Packer, Packing, Run};
use super::proof::{Modelled, Priced, MOST_PRICE};
use super::short::is_short;
use super::task::Task;
use super::weighing::{weighed, Weighed};
use super::{Progress, Seen};
use planner::Plan;
use std::sync::atomic::AtomicU64;
use std::thread;

/// Short orders: the sides of the models for exact calls, the work of finding each, and of all.
const SHORT_SIDES: [i32; 5] = [60, 120, 250, 500, 999];
const SHORT_FINDING: i64 = SECOND / 10;
const SHORT: i64 = 6 * SECOND;

/// The sides of the models for bounds with multipliers, each with its calls and the work of finding it.
const RUNGS: [Rung; 3] = [
    Rung { side: 100, calls: 60, finding: SECOND / 50 },
    Rung { side: 250, calls: 60, finding: SECOND / 5 },
    Rung { side: 999, calls: 150, finding: SECOND / 2 },
];

/// The work of the rounds on each of two threads. With a time, rounds go on until it is up, each with half as much again.
const ROUNDS: [i64; 4] = [SECOND / 4, SECOND / 2, 6 * SECOND, 8 * SECOND];

/// Packing with less work than this does not pay.
const LEAST_RUN: i64 = SECOND / 100;

#[derive(Clone, Copy)]
struct Rung {
    side: i32,
    calls: usize,
    finding: i64,
}

/// What was found for one board.
pub struct One {
    pub packing: Packing,
    pub ceiling: Option<Ceiling>,
}

/// The least bound of the proved calls, in prices, and what it was computed from.
#[derive(Clone, Debug)]
pub struct Ceiling {
    pub bound: u64,
    pub modelled: Modelled,
}

/// Worths as whole prices of at most a million: no worth is more than `unit` times its price.
#[derive(Clone, Debug, PartialEq, Eq)]
pub struct Prices {
    pub prices: Vec<u32>,
    pub unit: u64,
    /// All worths are whole multiples of this.
    pub step: u64,
}

impl Prices {
    pub fn new(worths: &[u64]) -> Prices {
        let most = worths.iter().copied().max().unwrap_or(0);
        let step = worths.iter().copied().fold(0, divisor).max(1);
        let unit = if most / step <= MOST_PRICE { step } else { most.div_ceil(MOST_PRICE) };
        Prices { prices: worths.iter().map(|worth| worth.div_ceil(unit) as u32).collect(), unit, step }
    }

    /// The most worth that so much in prices can be.
    pub fn worth(&self, bound: u64) -> u128 {
        let worth = u128::from(bound) * u128::from(self.unit);
        worth - worth % u128::from(self.step)
    }
}

fn divisor(a: u64, b: u64) -> u64 {
    if b == 0 {
        a
    } else {
        divisor(b, a % b)
    }
}

struct Search<'a> {
    task: &'a Task,
    board: usize,
    prices: Prices,
    values: Vec<i64>,
    /// What all panels are worth, in prices.
    all: i64,
    clock: Clock,
    memory: u64,
    empty: Packing,
    best: Packing,
    ceiling: Option<Ceiling>,
    /// The rungs that are left, none where the last model is exact, and that model.
    rungs: &'static [Rung],
    modelled: Option<Priced>,
    /// Whether weights have nothing more to give on it.
    is_weighed: bool,
    seed: u64,
}

/// What a bound, or weights, gave: the least bound and the plans met that truly fit the board.
#[derive(Default)]
struct Found {
    ceiling: Option<Ceiling>,
    packings: Vec<Packing>,
    modelled: Option<Priced>,
    is_exact: bool,
    is_weighed: bool,
}

pub fn one(task: &Task, board: usize, clock: Clock, memory: u64, progress: &Progress) -> One {
    let mut search = Search::new(task, board, clock, memory);
    let (mut rounds, mut work) = (ROUNDS.iter(), 0);
    search.call_exact();
    while !search.is_done() && (rounds.len() > 0 || clock.is_timed()) {
        work = rounds.next().copied().unwrap_or(work + work / 2);
        search.round(work);
        let (worth, most) = (search.worth(&search.best), search.most());
        progress.show(Seen::Worth { worth, most }, clock);
    }
    One { packing: search.best, ceiling: search.ceiling }
}

impl Search<'_> {
    fn new(task: &Task, board: usize, clock: Clock, memory: u64) -> Search<'_> {
        let prices = Prices::new(&task.worths);
        let values: Vec<i64> = prices.prices.iter().map(|price| i64::from(*price)).collect();
        let room = task.room(task.stock[board].sides);
        let empty = Packing { boards: vec![Board::new(board, room, task.stages)], left: task.counts() };
        let all = values.iter().zip(&empty.left).map(|(value, left)| value * i64::from(*left)).sum();
        let best = empty.clone();
        let coarse = |rung: &&Rung| task.is_coarse(task.stock[board].sides, rung.side);
        let rungs = &RUNGS[RUNGS.iter().take_while(coarse).count().min(RUNGS.len() - 1)..];
        Search {
            task,
            board,
            prices,
            values,
            all,
            clock,
            memory,
            empty,
            best,
            ceiling: None,
            rungs,
            modelled: None,
            is_weighed: false,
            seed: 0,
        }
    }

    fn is_done(&self) -> bool {
        self.worth(&self.best) >= self.most() || self.clock.is_over()
    }

    /// Short orders: exact calls on finer and finer models while they end in time, until a plan is as good as the
    /// bound.
    fn call_exact(&mut self) {
        let mut work = Work::new(SHORT, self.clock);
        let sides = if is_short(&self.empty.left) { &SHORT_SIDES[..] } else { &[] };
        for side in sides.iter().copied() {
            let Some((priced, is_exact)) = self.model(side, SHORT_FINDING, &mut work) else { return };
            let Some(estimate) = priced.exact_work().filter(|exact| work.has_call(*exact)) else { return };
            work.spend(estimate as usize);
            let Some((bound, plan)) = priced.exact() else { return };
            let ceiling = Some(Ceiling { bound, modelled: self.evidence(&priced) });
            let packings = self.packed(&priced, &plan).into_iter().collect();
            self.keep(Found { ceiling, packings, modelled: Some(priced), is_exact, is_weighed: is_exact });
            if self.is_done() {
                return;
            }
        }
    }

    fn worth(&self, packing: &Packing) -> i64 {
        let left = packing.left.iter().zip(&self.values).map(|(left, value)| i64::from(*left) * value);
        self.all - left.sum::<i64>()
    }

    /// The most that a packing can be worth, as far as that is proved.
    fn most(&self) -> i64 {
        self.ceiling.as_ref().map_or(self.all, |ceiling| self.all.min(ceiling.bound as i64))
    }

    /// Packs on two threads. The second looks for a bound first and packs with the work left.
    fn round(&mut self, work: i64) {
        let won = AtomicU64::new(u64::MAX);
        let enough = self.all - self.most();
        let pack = |work: i64, seed: u64| {
            let run = Run { work: work as u64, enough, clock: self.clock, won: &won };
            Packer::new(self.task, &self.values, self.seed + seed).improve(&self.empty, &run)
        };
        let (packings, found) = thread::scope(|scope| {
            let beside = scope.spawn(|| {
                let mut work = Work::new(work, self.clock);
                let found = self.bounded(&mut work);
                ((work.left() > LEAST_RUN).then(|| pack(work.left(), 1)), found)
            });
            let packing = pack(work, 0);
            let (other, found) = beside.join().expect("a search that ends");
            ([packing].into_iter().chain(other).collect(), found)
        });
        self.seed += 2;
        first(packings).into_iter().for_each(|packing| self.offer(packing));
        self.keep(found);
        self.climb();
    }

    /// Goes on to the next rung.
    fn climb(&mut self) {
        self.rungs = self.rungs.get(1..).unwrap_or_default();
    }

    fn offer(&mut self, packing: Packing) {
        if self.worth(&packing) > self.worth(&self.best) {
            self.best = packing;
        }
    }

    fn keep(&mut self, found: Found) {
        self.ceiling = better(self.ceiling.take(), found.ceiling);
        self.modelled = found.modelled.or(self.modelled.take());
        if found.is_exact {
            self.rungs = &[];
        }
        self.is_weighed |= found.is_weighed;
        found.packings.into_iter().for_each(|packing| self.offer(packing));
    }

    /// A bound: on a finer model, or where none is left, under weights on the last.
    fn bounded(&self, work: &mut Work) -> Found {
        match (self.rungs, &self.modelled) {
            ([rung, ..], _) => self.with_multipliers(*rung, work).unwrap_or_default(),
            ([], Some(priced)) if !self.is_weighed => self.with_weights(priced, work),
            _ => Found::default(),
        }
    }

    /// A model of this side under the prices, and whether it is exact; none where its check does not pass or not every
    /// copy stands in its block.
    fn model(&self, side: i32, finding: i64, work: &mut Work) -> Option<(Priced, bool)> {
        let sides = self.task.stock[self.board].sides;
        let dice = &mut Dice::new(side as u64);
        let (model, is_exact) = Problem::new(self.task, sides).model(side, finding, work, dice);
        let mut priced = Priced::new(self.task, &held(self.task, sides), sides, &model, self.memory)?;
        priced.set_prices(&self.prices.prices);
        priced.is_whole().then_some((priced, is_exact))
    }

    /// The bound on a model of this size, from the multipliers of one before it.
    fn with_multipliers(&self, rung: Rung, work: &mut Work) -> Option<Found> {
        let (priced, is_exact) = self.model(rung.side, rung.finding, work)?;
        let counts = held(self.task, self.task.stock[self.board].sides);
        let start = self.ceiling.as_ref().map_or(&[][..], |before| &before.modelled.multipliers);
        let made = lagrange(&counts, &priced, &self.prices.prices, start, rung.calls, work)?;
        let bound = priced.lagrangian(&made.multipliers)?;
        let modelled = Modelled { multipliers: made.multipliers, ..self.evidence(&priced) };
        let ceiling = Some(Ceiling { bound, modelled });
        Some(Found { ceiling, modelled: Some(priced), is_exact, ..Found::default() })
    }

    /// The bound under weights on a model, where every kind is one of the block.
    fn with_weights(&self, priced: &Priced, work: &mut Work) -> Found {
        let mut found = Found { is_weighed: true, ..Found::default() };
        if priced.entries.entries.len() != self.task.kinds.len() {
            return found;
        }
        let worth = self.worth(&self.best);
        let mut best = worth;
        let mut judge = |plan: &Plan| {
            let packing = self.packed(priced, plan);
            let worth = packing.as_ref().map_or(0, |packing| self.worth(packing));
            if worth > best {
                best = worth;
                found.packings.extend(packing);
            }
            best as u64
        };
        if let Some(Weighed { bound, weights }) = weighed(priced, worth as u64, &mut judge, work) {
            let modelled = Modelled { weights, ..self.evidence(priced) };
            found.ceiling = Some(Ceiling { bound, modelled });
        }
        found.is_weighed = !work.is_over();
        found
    }

    fn evidence(&self, priced: &Priced) -> Modelled {
        let (model, prices) = (priced.model.clone(), self.prices.prices.clone());
        Modelled { stock: self.board, model, prices, ..Modelled::default() }
    }

    /// The board with the panels of a plan of its model, as many as are ordered; none where they do not fit truly.
    fn packed(&self, priced: &Priced, plan: &Plan) -> Option<Packing> {
        let mut left = self.empty.left.clone();
        let mut panel = |entry: u16, turned: bool| {
            let (kind, _) = priced.entries.entries[usize::from(entry)];
            left[kind] = left[kind].checked_sub(1)?;
            Some((kind, self.task.wide(kind, turned)))
        };
        let board = self.empty.boards[0].with_plan(plan, &mut panel)?;
        Some(Packing { boards: vec![board], left })
    }
}

fn better(old: Option<Ceiling>, new: Option<Ceiling>) -> Option<Ceiling> {
    match (old, new) {
        (Some(old), Some(new)) if new.bound >= old.bound => Some(old),
        (old, new) => new.or(old),
    }
}

/// The copies of each kind, but where a block would take several entries no more than the board's area holds.
pub fn held(task: &Task, board: crate::plan::Sides) -> Vec<u32> {
    let [length, width] = task.room(board).map(i64::from);
    let hold = |kind: usize| {
        let [panel_length, panel_width] = task.wide(kind, false).map(i64::from);
        let most = length * width / (panel_length * panel_width);
        let count = task.kinds[kind].count;
        if count > 255 {
            count.min(most.min(i64::from(u32::MAX)) as u32)
        } else {
            count
        }
    };
    (0..task.kinds.len()).map(hold).collect()
}

/// What bounds the worth of a board, without a search for plans.
pub fn bounds_of_board(task: &Task, board: usize, clock: Clock, memory: u64) -> Vec<Modelled> {
    let mut search = Search::new(task, board, clock, memory);
    search.call_exact();
    for work in ROUNDS {
        let found = search.bounded(&mut Work::new(work, clock));
        search.keep(found);
        search.climb();
    }
    search.ceiling.map(|ceiling| ceiling.modelled).into_iter().collect()
}
