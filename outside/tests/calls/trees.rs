// The most that a guillotine tree of no more than so many stages earns, by trying every tree: for tiny
// jobs. Stages are counted from the leaves up, and each cut loses the kerf.
use crate::exact::Amounts;
use outside::reference::Job;

/// The stages that are told apart.
pub const MOST_STAGES: usize = 8;

#[derive(Clone, Copy, PartialEq, Eq)]
enum Cut {
    Length,
    Width,
}

/// What a cut above needs to know of a tree: the direction of its first cut, its stages and what it
/// uses; and what it earns.
#[derive(Clone, Copy)]
struct Tree {
    first: Option<Cut>,
    stages: usize,
    used: usize,
    profit: u64,
}

impl Tree {
    /// Its stages below a cut of this direction.
    fn stages_below(&self, cut: Cut) -> usize {
        if self.first == Some(cut) {
            self.stages
        } else {
            self.stages + 1
        }
    }
}

/// For each limit from 0 up the most that a tree within it and within the amounts earns; a piece uses
/// the amounts of its kind.
pub fn most(job: &Job, amounts: &Amounts, kinds: &[Option<usize>]) -> [u64; MOST_STAGES + 1] {
    let splits = Splits::of(amounts);
    let mut trees = vec![vec![Vec::new(); job.width + 1]; job.length + 1];
    for length in 1..=job.length {
        for width in 1..=job.width {
            let mut sorts = Sorts::new(amounts.states);
            sorts.add(Tree { first: None, stages: 0, used: 0, profit: 0 });
            for piece in job.pieces().filter(|piece| piece.fits(length, width)) {
                let profit = job.kinds[piece.kind].price;
                let tree = |used| Tree { first: None, stages: 0, used, profit };
                kinds[piece.kind].map(tree).into_iter().for_each(|tree| sorts.add(tree));
            }
            for (first, second) in job.parts(length) {
                sorts.cut(Cut::Length, &trees[first][width], &trees[second][width], &splits);
            }
            for (first, second) in job.parts(width) {
                sorts.cut(Cut::Width, &trees[length][first], &trees[length][second], &splits);
            }
            trees[length][width] = sorts.trees();
        }
    }
    let within = |limit| trees[job.length][job.width].iter().filter(move |t| t.stages <= limit);
    std::array::from_fn(|limit| within(limit).map(|t| t.profit).max().expect("waste"))
}

/// Which amounts are together within the limits.
struct Splits {
    states: usize,
    within: Vec<bool>,
}

impl Splits {
    fn of(amounts: &Amounts) -> Splits {
        let states = amounts.states;
        let mut within = vec![false; states * states];
        amounts.splits().iter().for_each(|&(a, b)| within[a * states + b] = true);
        Splits { states, within }
    }

    fn sum(&self, a: usize, b: usize) -> Option<usize> {
        self.within[a * self.states + b].then_some(a + b)
    }
}

/// The trees of one rectangle: of those that are alike to every cut above, the dearest.
struct Sorts {
    states: usize,
    dearest: Vec<Option<Tree>>,
}

impl Sorts {
    fn new(states: usize) -> Sorts {
        Sorts { states, dearest: vec![None; 3 * (MOST_STAGES + 1) * states] }
    }

    fn add(&mut self, tree: Tree) {
        let first = match tree.first {
            None => 0,
            Some(Cut::Length) => 1,
            Some(Cut::Width) => 2,
        };
        let sort = (first * (MOST_STAGES + 1) + tree.stages) * self.states + tree.used;
        let alike = &mut self.dearest[sort];
        if alike.is_none_or(|alike| alike.profit < tree.profit) {
            *alike = Some(tree);
        }
    }

    /// Every tree of a cut with a tree on each part.
    fn cut(&mut self, cut: Cut, first: &[Tree], second: &[Tree], splits: &Splits) {
        for x in first {
            for y in second {
                let stages = x.stages_below(cut).max(y.stages_below(cut));
                if let Some(used) = splits.sum(x.used, y.used).filter(|_| stages <= MOST_STAGES) {
                    let profit = x.profit + y.profit;
                    self.add(Tree { first: Some(cut), stages, used, profit });
                }
            }
        }
    }

    fn trees(self) -> Vec<Tree> {
        self.dearest.into_iter().flatten().collect()
    }
}
