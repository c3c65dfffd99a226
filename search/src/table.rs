// The filled table of a bound read back: the plan behind it, and others behind the first cuts of the board and of its
// larger part, of which some keep the order where the plan itself does not. Plans are those of a model; what they are
// worth truly is for the search to see.
use super::clock::Work;
use super::proof::Basis;
use super::short::all_pairs;
use planner::answers::{Refusal, Storage};
use planner::{slices, Plan};

/// The words of a list of positions.
const LIST: usize = 1_021;

/// The refusal that says how many words the table needs.
const TABLE_TOO_SHORT: u32 = 20;

/// Nodes of plans, as the calls have them.
const WASTE: u8 = 0;
const PIECE: u8 = 1;
const CUT: u8 = 2;
const TURNED: u8 = 4;

/// The work of a node that is traced, and of a cut that is looked at.
const TRACE: usize = 300;
const LOOK: usize = 8;

/// Shares of the two capacities.
type Shares = [usize; 2];

/// A way in which a kind may lie.
struct Way {
    kind: u16,
    turned: bool,
    sides: [u16; 2],
    price: u64,
    weights: Shares,
}

/// A rectangle by its normal length and width, and its shares.
#[derive(Clone, Copy)]
struct Cell {
    at: [usize; 2],
    shares: Shares,
}

pub struct Filled {
    pub bound: u64,
    pub capacities: Shares,
    /// Normal lengths and widths.
    positions: [Vec<u16>; 2],
    table: Vec<u64>,
    ways: Vec<Way>,
}

impl Filled {
    /// The table of the bound under one weight a kind, or two; none where it would be too long.
    pub fn new(basis: &Basis, weights: &[Vec<u8>; 2], memory: u64) -> Option<Filled> {
        let block = basis.job.block(basis.choices);
        let choices = basis.choices.word();
        let (mut lengths, mut widths, mut table) = (vec![0; LIST], vec![0; LIST], Vec::new());
        let mut call = |table: &mut Vec<u64>| {
            let storage = Storage { lengths: &mut lengths, widths: &mut widths, table };
            match &weights[1][..] {
                [] => slices::bound(&block, choices, &weights[0], storage)
                    .map(|made| (made.bound, [made.capacity, 0], [made.lengths, made.widths])),
                second => slices::bound_two(&block, choices, &weights[0], second, storage)
                    .map(|made| (made.bound, made.capacities, [made.lengths, made.widths])),
            }
        };
        let made = match call(&mut table) {
            Err(Refusal { number: TABLE_TOO_SHORT, place }) if place <= memory / 8 => {
                table.resize(place as usize, 0);
                call(&mut table)
            }
            made => made,
        };
        let (bound, capacities, [p, r]) = made.ok()?;
        lengths.truncate(p as usize);
        widths.truncate(r as usize);
        let capacities = capacities.map(|capacity| capacity as usize);
        Some(Filled { bound, capacities, positions: [lengths, widths], table, ways: ways(basis, weights) })
    }

    fn figure(&self, Cell { at, shares }: Cell) -> u64 {
        let cell = at[0] * self.positions[1].len() + at[1];
        let [first, second] = self.capacities.map(|capacity| capacity + 1);
        self.table[(cell * first + shares[0]) * second + shares[1]]
    }

    fn whole(&self) -> Cell {
        Cell { at: [0, 1].map(|side| self.positions[side].len() - 1), shares: self.capacities }
    }

    /// The plan behind the bound.
    pub fn plan(&self, work: &mut Work) -> Plan {
        let mut plan = Plan::default();
        self.trace(self.whole(), &mut plan, work);
        plan
    }

    /// Writes the plan behind a figure.
    fn trace(&self, cell: Cell, plan: &mut Plan, work: &mut Work) {
        work.spend(TRACE);
        let figure = self.figure(cell);
        let cell = self.least(cell, figure);
        let sides = [0, 1].map(|side| self.positions[side][cell.at[side]]);
        let lies = |way: &&Way| {
            way.price == figure
                && (0..2).all(|of| way.sides[of] <= sides[of] && way.weights[of] <= cell.shares[of])
        };
        if figure == 0 {
            push(plan, WASTE, 0);
        } else if let Some(way) = self.ways.iter().find(lies) {
            push(plan, if way.turned { TURNED } else { PIECE }, way.kind);
        } else {
            let (axis, [first, second]) = self.cut(cell, figure, work);
            push(plan, CUT + axis as u8, self.positions[axis][first.at[axis]]);
            self.trace(first, plan, work);
            self.trace(second, plan, work);
        }
    }

    /// The least rectangle and shares of the same figure.
    fn least(&self, mut cell: Cell, figure: u64) -> Cell {
        for side in 0..4 {
            loop {
                let mut less = cell;
                let number = if side < 2 { &mut less.at[side] } else { &mut less.shares[side - 2] };
                if *number == 0 {
                    break;
                }
                *number -= 1;
                if self.figure(less) != figure {
                    break;
                }
                cell = less;
            }
        }
        cell
    }

    /// A cut whose parts make up the figure.
    fn cut(&self, cell: Cell, figure: u64, work: &mut Work) -> (usize, [Cell; 2]) {
        let made = |parts: &(usize, [Cell; 2])| self.figure(parts.1[0]) + self.figure(parts.1[1]) == figure;
        let mut tried = 0;
        let found = self.cuts(cell).inspect(|_| tried += 1).find(made);
        work.spend(LOOK * tried);
        found.expect("a figure that a cut makes")
    }

    /// All cuts of a rectangle, the first part no longer than the second, with all ways to part its shares.
    fn cuts(&self, cell: Cell) -> impl Iterator<Item = (usize, [Cell; 2])> + '_ {
        let places = (0..2).flat_map(move |axis| {
            let side = self.positions[axis][cell.at[axis]];
            let firsts =
                (1..=cell.at[axis]).take_while(move |first| self.positions[axis][*first] <= side / 2);
            firsts.map(move |first| {
                let rest = side - self.positions[axis][first];
                let second = self.positions[axis].partition_point(|position| *position <= rest) - 1;
                (axis, first, second)
            })
        });
        places.flat_map(move |(axis, first, second)| {
            let shares =
                (0..=cell.shares[0]).flat_map(move |one| (0..=cell.shares[1]).map(move |other| [one, other]));
            shares.map(move |shares| {
                let left = [cell.shares[0] - shares[0], cell.shares[1] - shares[1]];
                let mut parts = [Cell { shares, ..cell }, Cell { shares: left, ..cell }];
                (parts[0].at[axis], parts[1].at[axis]) = (first, second);
                (axis, parts)
            })
        })
    }

    /// Plans behind the first cuts of the board that may earn more than this, and behind those of its larger part.
    /// `judge` is given each and says what it is worth; what it says must be exceeded by later ones. It gives the worth
    /// of the best.
    pub fn scan(&self, mut least: u64, judge: &mut dyn FnMut(&Plan) -> u64, work: &mut Work) -> u64 {
        for (axis, [first, second]) in self.cuts(self.whole()) {
            work.spend(LOOK);
            let (one, other) = (self.figure(first), self.figure(second));
            if work.is_over() {
                return least;
            }
            if one + other <= least || self.is_spare(first, one) {
                continue;
            }
            let mut start = Plan::default();
            push(&mut start, CUT + axis as u8, self.positions[axis][first.at[axis]]);
            self.trace(first, &mut start, work);
            let mut plan = start.clone();
            self.trace(second, &mut plan, work);
            least = least.max(judge(&plan));
            for (axis, parts) in self.cuts(second) {
                work.spend(LOOK);
                let figures = parts.map(|part| self.figure(part));
                let more = figures[0] + figures[1];
                if more == 0 || one + more <= least || self.is_spare(parts[0], figures[0]) {
                    continue;
                }
                if work.is_over() {
                    return least;
                }
                let mut plan = start.clone();
                push(&mut plan, CUT + axis as u8, self.positions[axis][parts[0].at[axis]]);
                parts.iter().for_each(|part| self.trace(*part, &mut plan, work));
                least = least.max(judge(&plan));
            }
        }
        least
    }

    /// About the work of the call that filled it: for every cut of a rectangle, pairs of shares at which the figures of
    /// its parts rise.
    pub fn work(&self) -> u64 {
        let [lengths, widths] = &self.positions;
        let shares = self.capacities.map(|capacity| capacity + 1);
        let rises = |length: usize, width: usize| {
            let words = shares[0] * shares[1];
            let cell = &self.table[(length * widths.len() + width) * words..][..words];
            cell.chunk_by(|one, next| one == next).count() as u64
        };
        let column = |width: usize| (0..lengths.len()).map(|length| rises(length, width)).collect();
        let row = |length: usize| (0..widths.len()).map(|width| rises(length, width)).collect();
        let pairs = all_pairs(lengths, widths.len(), column) + all_pairs(widths, lengths.len(), row);
        pairs + self.table.len() as u64
    }

    /// Whether fewer shares give the same figure.
    fn is_spare(&self, cell: Cell, figure: u64) -> bool {
        (0..2).any(|of| {
            let mut less = cell;
            less.shares[of] > 0 && {
                less.shares[of] -= 1;
                self.figure(less) == figure
            }
        })
    }
}

fn ways(basis: &Basis, weights: &[Vec<u8>; 2]) -> Vec<Way> {
    let mut ways = Vec::new();
    for (index, kind) in basis.job.kinds.iter().enumerate().filter(|(_, kind)| kind.demand > 0) {
        let weights = [0, 1].map(|of| weights[of].get(index).copied().unwrap_or(0).into());
        for turned in [false, true] {
            let turns = basis.choices.turning && !(basis.choices.grain && kind.grain);
            let sides = if turned { [kind.width, kind.length] } else { [kind.length, kind.width] };
            if !turned || turns {
                ways.push(Way { kind: index as u16, turned, sides, price: kind.price.into(), weights });
            }
        }
    }
    ways
}

fn push(plan: &mut Plan, kind: u8, operand: u16) {
    plan.kinds.push(kind);
    plan.operands.push(operand);
}

#[cfg(test)]
mod tests {
    use super::*;
    use crate::clock::{Clock, SECOND};
    use crate::dice::Dice;
    use planner::{Choices, Job, Kind, Planner, TrueSizes};

    const MEMORY: u64 = 1 << 30;

    fn generated(dice: &mut Dice) -> Basis {
        let mut from = |low: usize, high: usize| (low + dice.below(high - low + 1)) as u16;
        let kinds = (0..from(1, 5)).map(|_| Kind {
            length: from(2, 9),
            width: from(2, 9),
            price: from(1, 60).into(),
            demand: from(1, 3),
            grain: from(0, 1) == 1,
        });
        let kinds: Vec<Kind> = kinds.collect();
        let job = Job { length: from(8, 20), width: from(8, 20), kerf: 0, kinds };
        let choices = Choices { turning: from(0, 1) == 1, grain: true, ..Choices::default() };
        let sizes = TrueSizes { length: 1, width: 1, kerf: 0, kinds: Vec::new() };
        Basis { job, choices, sizes }
    }

    fn earned(basis: &Basis, plan: &Plan) -> u64 {
        let pieces =
            plan.kinds.iter().zip(&plan.operands).filter(|(kind, _)| matches!(**kind, PIECE | TURNED));
        pieces.map(|(_, number)| u64::from(basis.job.kinds[usize::from(*number)].price)).sum()
    }

    /// A plan passes the check of the same job with demands of any number.
    fn passes(basis: &Basis, plan: &Plan) -> bool {
        let mut job = basis.job.clone();
        job.kinds.iter_mut().for_each(|kind| kind.demand = 255);
        let neat = Planner::new(&job, basis.choices, 0).neat(plan);
        neat.is_ok_and(|neat| Planner::new(&job, basis.choices, 0).check(&neat).is_ok())
    }

    #[test]
    fn plans_earn_their_bounds() {
        let mut dice = Dice::new(9);
        for _ in 0..200 {
            let basis = generated(&mut dice);
            let mut some = || basis.job.kinds.iter().map(|_| dice.below(3) as u8).collect::<Vec<u8>>();
            for weights in [[some(), Vec::new()], [some(), some()]] {
                let work = &mut Work::new(SECOND, Clock::new(None));
                let filled = Filled::new(&basis, &weights, MEMORY).expect("a table");
                let mut planner = Planner::new(&basis.job, basis.choices, MEMORY);
                let bound = match &weights[1][..] {
                    [] => planner.bound(&weights[0]).expect("a bound").bound,
                    second => planner.bound_two(&weights[0], second).expect("a bound").bound,
                };
                let plan = filled.plan(work);
                assert_eq!((filled.bound, earned(&basis, &plan)), (bound, bound));
                assert!(bound == 0 || passes(&basis, &plan), "{plan:?} {basis:?}");
                let mut judged = Vec::new();
                filled.scan(
                    0,
                    &mut |plan| {
                        judged.push(plan.clone());
                        0
                    },
                    work,
                );
                assert!(judged.iter().all(|plan| earned(&basis, plan) <= bound && passes(&basis, plan)));
            }
        }
    }
}
