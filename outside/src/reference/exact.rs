// The exact answer for short orders: refusal 30, and figures at every state of the remaining copies.
// Straight from the definition: a cut shares out the copies of every kind.
use super::bound::Cells;
use super::figures::Figures;
use super::job::Job;
use super::refuse_if;
use super::writer::{write, Shares};
use crate::answers::{Exact, PlanArrays, Refusal, Storage};

/// The remaining copies of every kind as one number of mixed radix, kind 0 lowest.
pub struct Copies {
    radix: Vec<usize>,
    pub states: usize,
}

pub fn exact(job: &[u8], choices: u32, storage: Storage, plan: PlanArrays) -> Result<Exact, Refusal> {
    let job = Job::read(job, choices)?;
    let copies = Copies::of(&job)?;
    let cells = Cells::list(&job, storage.lengths, storage.widths)?;
    let figures = &cells.fill(storage.table, 1, copies.states, || vec![figures(&job, &copies)])?[0];
    let all = copies.states - 1;
    let nodes = write(&job, &copies, (figures, &cells), all, plan)?;
    Ok(Exact {
        optimum: figures.at(job.length, job.width, all),
        states: copies.states as u64,
        lengths: cells.lengths.len() as u64,
        widths: cells.widths.len() as u64,
        nodes: nodes as u64,
    })
}

fn figures(job: &Job, copies: &Copies) -> Figures {
    let splits = copies.splits();
    let raise = |best: &mut [u64], first: &[u64], second: &[u64]| {
        for &(whole, part) in &splits {
            best[whole] = best[whole].max(first[part] + second[whole - part]);
        }
    };
    Figures::each(job, copies.states, |figures, length, width| {
        let mut best = vec![0; copies.states];
        for piece in job.pieces().filter(|piece| piece.fits(length, width)) {
            let price = job.kinds[piece.kind].price;
            for state in (0..copies.states).filter(|&state| copies.has(state, piece.kind)) {
                best[state] = price.max(best[state]);
            }
        }
        for (first, second) in job.parts(length) {
            raise(&mut best, figures.shares_of(first, width), figures.shares_of(second, width));
        }
        for (first, second) in job.parts(width) {
            raise(&mut best, figures.shares_of(length, first), figures.shares_of(length, second));
        }
        best
    })
}

impl Copies {
    /// Refusal 30. The product stops growing where it is too great.
    pub fn of(job: &Job) -> Result<Copies, Refusal> {
        let radix: Vec<usize> = job.kinds.iter().map(|kind| kind.demand as usize + 1).collect();
        let states = radix.iter().fold(1, |product, radix| 4097.min(product * radix));
        refuse_if(states > 4096, 30, 0)?;
        Ok(Copies { radix, states })
    }

    fn digits(&self, mut state: usize) -> impl Iterator<Item = usize> + '_ {
        self.radix.iter().map(move |radix| {
            let digit = state % radix;
            state /= radix;
            digit
        })
    }

    /// Each state with each of its parts, of which no kind has more copies.
    fn splits(&self) -> Vec<(usize, usize)> {
        let mut splits = vec![(0, 0)];
        let mut stride = 1;
        for &radix in &self.radix {
            let digits = (0..radix).flat_map(|whole| (0..=whole).map(move |part| (whole, part)));
            let with = |(a, b): (usize, usize)| {
                splits.iter().map(move |(whole, part)| (whole + a * stride, part + b * stride))
            };
            splits = digits.flat_map(with).collect();
            stride *= radix;
        }
        splits
    }

    /// The number of splits.
    pub fn ways(&self) -> usize {
        self.radix.iter().map(|radix| radix * (radix + 1) / 2).product()
    }
}

impl Shares for Copies {
    fn has(&self, state: usize, kind: usize) -> bool {
        self.digits(state).nth(kind).is_some_and(|left| left > 0)
    }

    fn divides(&self, state: usize, part: usize) -> bool {
        self.digits(part).zip(self.digits(state)).all(|(part, whole)| part <= whole)
    }
}
