// Whole orders: every panel on boards that cost as little as possible, and what any plan must at least cost. Then the
// last board is packed closer, so that its rest is as large as possible.
use super::board::Board;
use super::bound::{floor, Floor, Offer};
use super::clock::{Clock, Work, SECOND};
use super::dice::Dice;
use super::model::Problem;
use super::pack::{first, Packer, Packing, Run};
use super::proof::Modelled;
use super::task::{Stock, Task};
use super::{Progress, Seen};
use std::sync::atomic::{AtomicU64, Ordering};
use std::thread;

/// Fillings from nothing, of which the best is taken, and their work at most.
const FILLINGS: usize = 200;
const FILLING: i64 = SECOND;

/// The sides of the models; for each the calls of the bound, the work of finding the models, and the work in all, as
/// much as packing takes beside it.
const RUNGS: [Rung; 4] = [
    Rung { side: 100, calls: 400, finding: SECOND / 20, work: SECOND / 2 },
    Rung { side: 250, calls: 300, finding: SECOND / 7, work: SECOND },
    Rung { side: 500, calls: 200, finding: SECOND / 3, work: 3 * SECOND },
    Rung { side: 999, calls: 200, finding: SECOND / 3, work: 8 * SECOND },
];

/// Work of the rounds of packing after the bounds, on each of two threads, and of all rounds. Where there is a time,
/// rounds go on until it is up, each with half as much again.
const ROUNDS: [i64; 3] = [3 * SECOND, 6 * SECOND, 9 * SECOND];
const ALL_ROUNDS: i64 = 24 * SECOND;

/// Work of each try to pack the last board closer, and how often its length and its width are halved towards the
/// least.
const CLOSER: i64 = SECOND / 8;
const HALVINGS: usize = 7;

/// Packing with less work than this does not pay.
const LEAST_RUN: i64 = SECOND / 100;

/// A last board is not packed closer than this, in thousandths of a millimetre.
const CLOSE: i32 = 5_000;

/// Sets of boards of several sizes that are looked at, and that are tried in a round.
const MOST_SETS: usize = 100_000;
const TRIED_SETS: usize = 4;

/// The share of a time after which the last board is packed closer; what comes before has so much of it.
const LAST_BOARD: f64 = 0.85;

struct Rung {
    side: i32,
    calls: usize,
    finding: i64,
    work: i64,
}

/// What was found for a whole order.
pub struct Whole {
    pub packing: Packing,
    pub proof: Option<Proof>,
}

/// A floor of the proved calls, and what it was computed from.
#[derive(Clone, Debug)]
pub struct Proof {
    pub modelled: Vec<Modelled>,
    pub floor: Floor,
}

struct Search<'a> {
    task: &'a Task,
    values: Vec<i64>,
    clock: Clock,
    memory: u64,
    progress: &'a Progress,
    best: Packing,
    proof: Option<Proof>,
    /// Prices of the last floor, from which the next starts.
    prices: Vec<u32>,
    seed: u64,
}

pub fn whole(task: &Task, clock: Clock, memory: u64, progress: &Progress) -> Whole {
    let values = areas(task);
    let best = Packing { boards: Vec::new(), left: task.counts() };
    if task.kinds.is_empty() {
        return Whole { packing: best, proof: None };
    }
    let (proof, prices, seed) = (None, Vec::new(), 0);
    let before = clock.share(LAST_BOARD);
    let mut search = Search { task, values, clock: before, memory, progress, best, proof, prices, seed };
    search.fill();
    search.climb();
    search.pack_on();
    search.clock = clock;
    search.close_up();
    Whole { packing: search.best, proof: search.proof }
}

/// Areas in a unit in which they add up within 63 bits.
fn areas(task: &Task) -> Vec<i64> {
    let area = |kind: usize| {
        let [length, width] = task.wide(kind, false).map(i64::from);
        length * width
    };
    let most = (0..task.kinds.len()).map(area).max().unwrap_or(1);
    let shift = (64 - most.leading_zeros()).saturating_sub(40);
    (0..task.kinds.len()).map(|kind| (area(kind) >> shift).max(1)).collect()
}

impl Search<'_> {
    fn cost(&self, packing: &Packing) -> u64 {
        let used = packing.boards.iter().filter(|board| !board.is_empty());
        used.map(|board| self.task.stock[board.stock].cost).sum()
    }

    fn missing(&self, packing: &Packing) -> i64 {
        packing.left.iter().zip(&self.values).map(|(left, value)| i64::from(*left) * value).sum()
    }

    fn board(&self, stock: usize) -> Board {
        Board::new(stock, self.task.room(self.task.stock[stock].sides), self.task.stages)
    }

    /// What a plan must at least cost, as far as that is proved.
    fn floor(&self) -> u64 {
        self.proof.as_ref().map_or(0, |proof| proof.floor.cost)
    }

    /// Whether the best packing holds the order and costs no more than it must.
    fn is_best(&self) -> bool {
        self.missing(&self.best) == 0 && self.cost(&self.best) <= self.floor()
    }

    /// What is missing, what the boards cost, and how many they are: the less the better.
    fn key(&self, packing: &Packing) -> (i64, u64, usize) {
        (self.missing(packing), self.cost(packing), packing.boards.len())
    }

    /// Keeps a packing that is better.
    fn offer(&mut self, packing: Packing) {
        if self.key(&packing) < self.key(&self.best) {
            self.best = packing;
        }
        let boards = self.best.boards.len();
        self.progress
            .show(Seen::Cost { boards, cost: self.cost(&self.best), least: self.floor() }, self.clock);
    }

    /// The best of many fillings: the offcuts first, then boards as they are needed.
    fn fill(&mut self) {
        let mut work = Work::new(FILLING, self.clock);
        for _ in 0..FILLINGS {
            let mut packing = Packing { boards: self.offcuts(), left: self.task.counts() };
            let mut opened = vec![0; self.task.stock.len()];
            let mut fresh = |kind: usize| {
                let stock = self.cheapest(kind, &opened)?;
                opened[stock] += 1;
                Some(self.board(stock))
            };
            let values = self.values.clone();
            let mut packer = Packer::new(self.task, &values, self.seed);
            packer.fill(&mut packing, &mut fresh);
            work.spend(packer.work as usize);
            packing.boards.retain(|board| !board.is_empty());
            self.seed += 1;
            self.offer(packing);
            if work.is_over() || self.clock.is_over() || self.fills_area() {
                return;
            }
        }
    }

    /// Whether so much area takes as many boards, where all are of one size: then no filling has fewer.
    fn fills_area(&self) -> bool {
        let one_size = self.task.stock.len() == 1 && self.missing(&self.best) == 0;
        one_size && !self.has_area(&vec![0; self.best.boards.len() - 1])
    }

    /// A board for each offcut.
    fn offcuts(&self) -> Vec<Board> {
        let free = self.task.stock.iter().enumerate().filter(|(_, stock)| stock.cost == 0);
        free.flat_map(|(index, stock)| vec![self.board(index); stock.count.unwrap_or(0) as usize]).collect()
    }

    /// The board of least cost for its area that takes a kind, of those that are left.
    fn cheapest(&self, kind: usize, opened: &[u32]) -> Option<usize> {
        let left = |index: usize| {
            let stock = &self.task.stock[index];
            stock.cost > 0 && stock.count.is_none_or(|count| opened[index] < count)
        };
        let takes = |index: usize| self.task.ways(kind, self.task.stock[index].sides).next().is_some();
        let each = |index: usize| {
            let [length, width] = self.task.stock[index].sides.map(f64::from);
            self.task.stock[index].cost as f64 / (length * width)
        };
        let open = (0..self.task.stock.len()).filter(|index| left(*index) && takes(*index));
        open.min_by(|a, b| each(*a).total_cmp(&each(*b)))
    }

    /// The rungs that are not too coarse, or else the last.
    fn rungs(&self) -> &'static [Rung] {
        let coarse =
            |rung: &&Rung| self.task.stock.iter().any(|stock| self.task.is_coarse(stock.sides, rung.side));
        &RUNGS[RUNGS.iter().take_while(coarse).count().min(RUNGS.len() - 1)..]
    }

    /// Bounds on finer and finer models, while boards are packed beside; at least one, even where the time is up.
    fn climb(&mut self) {
        for rung in self.rungs() {
            if self.is_best() || self.clock.is_over() && !self.prices.is_empty() {
                return;
            }
            let cost = if self.missing(&self.best) == 0 { self.cost(&self.best) } else { u64::MAX - 1 };
            let start = self.starts().into_iter().next();
            let won = AtomicU64::new(u64::MAX);
            let pack = |work: i64, seed: u64| {
                let start = start.as_ref().filter(|_| work > LEAST_RUN)?;
                Some(self.packed(start, work, self.seed + seed, &won))
            };
            let (proof, packings) = thread::scope(|scope| {
                let beside = scope.spawn(|| {
                    let mut work = Work::new(rung.work, self.clock);
                    let proof = self.prove(rung, cost, &mut work);
                    if proof.as_ref().is_some_and(|proof| proof.floor.cost >= cost) {
                        won.store(0, Ordering::Relaxed);
                    }
                    (proof, pack(work.left(), 2))
                });
                let packing = pack(rung.work, 1);
                let (proof, other) = beside.join().expect("a bound that ends");
                (proof, packing.into_iter().chain(other).collect())
            });
            self.seed += 2;
            self.keep(proof);
            first(packings).into_iter().for_each(|packing| self.offer(packing));
        }
    }

    /// Keeps a proof of a greater floor, and in any case its prices.
    fn keep(&mut self, proof: Option<Proof>) {
        let cost = |proof: &Option<Proof>| proof.as_ref().map(|proof| proof.floor.cost);
        if let Some(proof) = &proof {
            self.prices.clone_from(&proof.floor.prices);
        }
        if cost(&proof) > cost(&self.proof) {
            self.proof = proof;
        }
    }

    /// Rounds of packing towards less cost, with a seed on each core. Several sets of boards share the work of a round.
    fn pack_on(&mut self) {
        let (mut round, mut work, mut left) = (0, ROUNDS[0], ALL_ROUNDS);
        let timed = self.clock.is_timed();
        while !self.is_best() && !self.clock.is_over() && (timed || round < ROUNDS.len() && left > 0) {
            work = ROUNDS.get(round).copied().unwrap_or(work + work / 2);
            left -= work;
            let before = self.key(&self.best);
            let starts = self.starts();
            let each = work / starts.len().max(1) as i64;
            for start in starts {
                let won = AtomicU64::new(u64::MAX);
                let packings = thread::scope(|scope| {
                    let beside = scope.spawn(|| self.packed(&start, each, self.seed + 2, &won));
                    vec![
                        self.packed(&start, each, self.seed + 1, &won),
                        beside.join().expect("a search that ends"),
                    ]
                });
                self.seed += 2;
                first(packings).into_iter().for_each(|packing| self.offer(packing));
                if self.key(&self.best) < before {
                    break;
                }
            }
            round = if self.key(&self.best) < before { 0 } else { round + 1 };
        }
    }

    /// A packing of so much work from a start.
    fn packed(&self, start: &Packing, work: i64, seed: u64, won: &AtomicU64) -> (Packing, Option<u64>) {
        let run = Run { work: work as u64, enough: 0, clock: self.clock, won };
        let (mut packing, taken) = Packer::new(self.task, &self.values, seed).improve(start, &run);
        packing.boards.retain(|board| !board.is_empty());
        (packing, taken)
    }

    /// Boards to start from that cost less than the best packing, the cheapest first.
    fn starts(&self) -> Vec<Packing> {
        if self.missing(&self.best) > 0 {
            return vec![self.best.clone()];
        }
        let sizes = self.task.stock.iter().filter(|stock| stock.cost > 0).count();
        if sizes == 1 {
            self.fewer().into_iter().collect()
        } else {
            self.cheaper()
        }
    }

    /// The best packing without the emptiest board that was bought, and with every offcut.
    fn fewer(&self) -> Option<Packing> {
        let mut packing = self.best.clone();
        let bought = |board: &Board| self.task.stock[board.stock].cost > 0;
        let boards = packing.boards.iter().enumerate().filter(|(_, board)| bought(board));
        let (index, _) = boards.min_by_key(|(_, board)| board.filled)?;
        Packer::new(self.task, &self.values, 0).empty(&mut packing, index);
        packing.boards.remove(index);
        for offcut in self.offcuts() {
            let of_size =
                |boards: &[Board]| boards.iter().filter(|board| board.stock == offcut.stock).count();
            if of_size(&packing.boards) < of_size(&self.offcuts()) {
                packing.boards.push(offcut);
            }
        }
        (!packing.boards.is_empty()).then_some(packing)
    }

    /// Empty boards of every set that costs less than the best packing, no less than must be, and has the area.
    fn cheaper(&self) -> Vec<Packing> {
        let bought: Vec<usize> =
            (0..self.task.stock.len()).filter(|index| self.task.stock[*index].cost > 0).collect();
        let mut sets: Vec<(u64, Vec<usize>)> = vec![(0, Vec::new())];
        for index in bought {
            let Stock { cost, count, .. } = self.task.stock[index];
            let with = |(before, set): &(u64, Vec<usize>)| {
                let most = (self.cost(&self.best).saturating_sub(*before) / cost)
                    .min(count.unwrap_or(u32::MAX).into());
                let longer = |number: u64| [&set[..], &vec![index; number as usize]].concat();
                (0..=most).map(|number| (before + number * cost, longer(number))).collect::<Vec<_>>()
            };
            sets = sets.iter().flat_map(with).collect();
            sets.truncate(MOST_SETS);
        }
        sets.retain(|(cost, set)| (self.floor()..self.cost(&self.best)).contains(cost) && self.has_area(set));
        sets.sort();
        let packing = |(_, set): &(u64, Vec<usize>)| {
            let boards = self.offcuts().into_iter().chain(set.iter().map(|index| self.board(*index)));
            Packing { boards: boards.collect(), left: self.task.counts() }
        };
        sets.iter().take(TRIED_SETS).map(packing).collect()
    }

    fn has_area(&self, set: &[usize]) -> bool {
        let area = |[length, width]: [i32; 2]| i128::from(length) * i128::from(width);
        let kinds = self.task.kinds.iter().enumerate();
        let need: i128 =
            kinds.map(|(index, kind)| i128::from(kind.count) * area(self.task.wide(index, false))).sum();
        let offcuts: i128 = self.offcuts().iter().map(|board| i128::from(board.area())).sum();
        let have: i128 = set.iter().map(|index| area(self.task.room(self.task.stock[*index].sides))).sum();
        have + offcuts >= need
    }

    /// A floor on models of this size; `enough` ends it early.
    fn prove(&self, rung: &Rung, enough: u64, work: &mut Work) -> Option<Proof> {
        let (mut offers, mut modelled) = (Vec::new(), Vec::new());
        let finding = rung.finding / self.task.usable_stock().count().max(1) as i64;
        for index in self.task.usable_stock() {
            let problem = Problem::new(self.task, self.task.stock[index].sides);
            let (model, _) = problem.model(rung.side, finding, work, &mut Dice::new(rung.side as u64));
            offers.push(Offer::new(self.task, index, &model, self.memory)?);
            modelled.push(Modelled { stock: index, model, ..Modelled::default() });
        }
        let floor = floor(self.task, &mut offers, &self.prices, enough, rung.calls, work)?;
        modelled.iter_mut().for_each(|part| part.prices.clone_from(&floor.prices));
        Some(Proof { modelled, floor })
    }

    /// Packs the emptiest board closer along its length and along its width, and keeps the greater rest.
    fn close_up(&mut self) {
        if self.missing(&self.best) > 0 {
            return;
        }
        let filled = |index: &usize| self.best.boards[*index].filled;
        let bought = |index: &usize| self.task.stock[self.best.boards[*index].stock].cost > 0;
        let Some(last) = (0..self.best.boards.len()).filter(bought).min_by_key(filled) else {
            return;
        };
        let closer = thread::scope(|scope| {
            let beside = scope.spawn(|| self.closer(last, 1));
            [self.closer(last, 0), beside.join().expect("a search that ends")]
        });
        let rest = |packing: &Packing| {
            let (room, used) = (packing.boards[last].room, packing.boards[last].used());
            let along = i64::from(room[0] - used[0]) * i64::from(room[1]);
            along.max(i64::from(room[1] - used[1]) * i64::from(room[0]))
        };
        for mut packing in closer {
            packing.boards[last].room = self.best.boards[last].room;
            if rest(&packing) > rest(&self.best) {
                self.best = packing;
            }
        }
        let board = self.best.boards.remove(last);
        self.best.boards.push(board);
    }

    fn closer(&self, last: usize, axis: usize) -> Packing {
        let mut packer = Packer::new(self.task, &self.values, self.seed + 3 + axis as u64);
        let mut now = self.best.clone();
        let mut least = 0;
        for _ in 0..HALVINGS {
            let most = now.boards[last].used()[axis];
            if most <= least + CLOSE || self.clock.is_over() {
                break;
            }
            let mut next = now.clone();
            packer.empty(&mut next, last);
            let middle = most - (most - least) / 2;
            next.boards[last].room[axis] = middle;
            let (work, won) = (CLOSER as u64, &AtomicU64::new(u64::MAX));
            let (next, _) = packer.improve(&next, &Run { work, enough: 0, clock: self.clock, won });
            if self.missing(&next) == 0 {
                now = next;
            } else {
                least = middle;
            }
        }
        now
    }
}

/// What bounds the cost of a whole order, without a search for plans.
pub fn bounds_of_order(task: &Task, clock: Clock, memory: u64) -> Vec<Modelled> {
    let best = Packing { boards: Vec::new(), left: task.counts() };
    let progress = &Progress::none();
    let values = areas(task);
    let (proof, prices, seed) = (None, Vec::new(), 0);
    let mut search = Search { task, values, clock, memory, progress, best, proof, prices, seed };
    for rung in search.rungs() {
        search.keep(search.prove(rung, u64::MAX - 1, &mut Work::new(rung.work, clock)));
        if clock.is_over() {
            break;
        }
    }
    search.proof.map(|proof| proof.modelled).unwrap_or_default()
}
