// Packs panels on boards by ruin and recreate: parts of a board or two are taken out, and everything that lies outside
// is put back where it fits best. The same seed always gives the same packing.
use super::board::{Board, Node, Place, Score};
use super::clock::Clock;
use super::dice::Dice;
use super::task::Task;
use std::sync::atomic::{AtomicU64, Ordering};

/// Boards, and the copies of each kind that lie on none.
#[derive(Clone, Debug)]
pub struct Packing {
    pub boards: Vec<Board>,
    pub left: Vec<u32>,
}

/// The heat at the start of a run, in values of a mean panel, and its share that is left at the end.
const HEAT: f64 = 0.3;
const COOLING: f64 = 0.01;

/// One step in so many empties a whole board.
const WHOLE: usize = 24;

/// Work between two looks at the clock.
const GLANCE: u64 = 200_000;

/// The work of a step, of a kind in its queue, of a board and of a node of it that is looked at for a place, and of a
/// node that is copied.
const STEP: u64 = 600;
const QUEUED: u64 = 40;
const BOARD: u64 = 8;
const LOOK: u64 = 6;
const COPY: u64 = 24;

pub struct Packer<'a> {
    task: &'a Task,
    /// What a copy of each kind counts where it is missing.
    values: &'a [i64],
    dice: Dice,
    spare: Vec<Node>,
    /// What was done so far, in what takes about a nanosecond.
    pub work: u64,
}

/// A run: its work at most, what may be missing at its end, and the least work in which a run beside it has come so
/// far.
pub struct Run<'a> {
    pub work: u64,
    pub enough: i64,
    pub clock: Clock,
    pub won: &'a AtomicU64,
}

type Touched = Vec<(usize, Board)>;

impl<'a> Packer<'a> {
    pub fn new(task: &'a Task, values: &'a [i64], seed: u64) -> Packer<'a> {
        Packer { task, values, dice: Dice::new(seed), spare: Vec::new(), work: 0 }
    }

    /// The value of what is missing.
    pub fn missing(&self, packing: &Packing) -> i64 {
        packing.left.iter().zip(self.values).map(|(left, value)| i64::from(*left) * value).sum()
    }

    /// Fills boards one after another; where nothing fits, `fresh` opens another.
    pub fn fill(&mut self, packing: &mut Packing, fresh: &mut dyn FnMut(usize) -> Option<Board>) {
        self.recreate(packing, fresh, &mut Vec::new());
    }

    /// Takes everything off a board.
    pub fn empty(&mut self, packing: &mut Packing, board: usize) {
        self.take(packing, board, packing.boards[board].root(), &mut Vec::new());
    }

    /// Runs from a packing and gives the best that is met, with the work that it took where so little is missing.
    pub fn improve(&mut self, from: &Packing, run: &Run) -> (Packing, Option<u64>) {
        let (mut now, mut missing) = (from.clone(), self.missing(from));
        let (mut best, mut least) = (now.clone(), missing);
        let (start, mean) = (self.work, self.mean_value());
        let (mut glance, mut heat) = (start, 0.0);
        loop {
            let spent = self.work - start;
            if least <= run.enough {
                run.won.fetch_min(spent, Ordering::Relaxed);
                return (best, Some(spent));
            }
            if self.work >= glance {
                if spent > run.work || run.clock.is_over() || spent > run.won.load(Ordering::Relaxed) {
                    return (best, None);
                }
                heat = mean * HEAT * COOLING.powf(spent as f64 / run.work as f64);
                glance = self.work + GLANCE;
            }
            self.work += STEP;
            let (left, mut touched) = (now.left.clone(), Vec::new());
            self.ruin(&mut now, &mut touched);
            self.recreate(&mut now, &mut |_| None, &mut touched);
            let new = self.missing(&now);
            if new as f64 <= missing as f64 - heat * self.dice.unit().max(1e-12).ln() {
                missing = new;
                if new < least {
                    (least, best) = (new, now.clone());
                }
            } else {
                touched.into_iter().for_each(|(index, board)| now.boards[index] = board);
                now.left = left;
            }
        }
    }

    fn mean_value(&self) -> f64 {
        let counts = self.task.kinds.iter().map(|kind| f64::from(kind.count));
        let worth: f64 =
            self.values.iter().zip(counts.clone()).map(|(value, count)| *value as f64 * count).sum();
        worth / counts.sum::<f64>()
    }

    /// Takes one to three nodes, or all, off one or two boards.
    fn ruin(&mut self, packing: &mut Packing, touched: &mut Touched) {
        let boards = packing.boards.len();
        for _ in 0..1 + self.dice.below(boards.min(2)) {
            let board = self.dice.below(boards);
            if self.dice.below(WHOLE) == 0 {
                self.take(packing, board, packing.boards[board].root(), touched);
            }
            for _ in 0..1 + self.dice.below(3) {
                let nodes = packing.boards[board].len();
                if nodes > 0 {
                    let node = self.dice.below(nodes) as u32;
                    self.take(packing, board, node, touched);
                }
            }
        }
    }

    fn take(&mut self, packing: &mut Packing, index: usize, node: u32, touched: &mut Touched) {
        let board = &mut packing.boards[index];
        if board.is_empty() {
            return;
        }
        keep(touched, index, board);
        board.kinds_at(node).into_iter().for_each(|kind| packing.left[kind] += 1);
        self.work += COPY * board.len() as u64;
        board.take(node, &mut self.spare);
    }

    /// Puts what lies outside on the boards, each panel where it fits best.
    fn recreate(
        &mut self,
        packing: &mut Packing,
        fresh: &mut dyn FnMut(usize) -> Option<Board>,
        touched: &mut Touched,
    ) {
        let queue = self.queue(&packing.left);
        let score =
            [Score::LeastSlack, Score::LeastSlack, Score::LeastVoid, Score::EqualWidth][self.dice.below(4)];
        for kind in queue {
            while packing.left[kind] > 0 {
                if let Some((board, turned, place)) = self.best_place(&packing.boards, kind, score) {
                    keep(touched, board, &packing.boards[board]);
                    let used = self.task.wide(kind, turned);
                    self.work += COPY * packing.boards[board].len() as u64;
                    packing.boards[board].put(kind, turned, used, place, &mut self.spare);
                    packing.left[kind] -= 1;
                } else if let Some(board) = fresh(kind) {
                    packing.boards.push(board);
                } else {
                    break;
                }
            }
        }
    }

    fn best_place(&mut self, boards: &[Board], kind: usize, score: Score) -> Option<(usize, bool, Place)> {
        let [upright, turned] = [false, true].map(|turned| self.task.wide(kind, turned));
        let area = i64::from(upright[0]) * i64::from(upright[1]);
        let (mut best, mut found) = (Place::NOWHERE, None);
        for (index, board) in
            boards.iter().enumerate().filter(|(_, board)| board.filled + area <= board.area())
        {
            for (turned, sides) in [(false, upright), (true, turned)] {
                if turned && !self.task.kinds[kind].turns {
                    continue;
                }
                self.work += BOARD + LOOK * board.looks(sides);
                if board.place(sides, score, &mut self.dice, &mut best) {
                    found = Some((index, turned));
                }
            }
        }
        found.map(|(index, turned)| (index, turned, best))
    }

    /// The kinds that lie outside, large ones first by one of several rules, with some noise, or in any order.
    fn queue(&mut self, left: &[u32]) -> Vec<usize> {
        let rule = self.dice.below(6);
        self.work += QUEUED * left.len() as u64;
        let outside = (0..left.len()).filter(|kind| left[*kind] > 0);
        let mut queue: Vec<(i64, usize)> = outside
            .map(|kind| {
                let [length, width] = self.task.wide(kind, false).map(f64::from);
                let key = match rule {
                    0 | 1 => length * width,
                    2 => length.max(width),
                    3 => length,
                    4 => width,
                    _ => 1e6 * self.dice.unit(),
                };
                (-(key * (0.85 + 0.3 * self.dice.unit())) as i64, kind)
            })
            .collect();
        queue.sort_unstable();
        queue.into_iter().map(|(_, kind)| kind).collect()
    }
}

/// The packings of runs side by side: of those that came far enough the one with the least work, or else all.
pub fn first(packings: Vec<(Packing, Option<u64>)>) -> Vec<Packing> {
    let least = packings.iter().filter_map(|(_, work)| *work).min();
    let kept = packings.into_iter().filter(|(_, work)| *work == least).map(|(packing, _)| packing);
    if least.is_some() {
        kept.take(1).collect()
    } else {
        kept.collect()
    }
}

/// Keeps a board as it was before the step.
fn keep(touched: &mut Touched, index: usize, board: &Board) {
    if !touched.iter().any(|(kept, _)| *kept == index) {
        touched.push((index, board.clone()));
    }
}
