// The figure of every rectangle of whole sides up to the plate's, at every share.
// Straight from its definition: nothing, a piece, or the best split of a cut at any unit, which loses
// the kerf.
use super::job::Job;

pub struct Figures {
    width: usize,
    shares: usize,
    words: Vec<u64>,
}

impl Figures {
    pub fn of(job: &Job, weights: &[u8], capacity: usize) -> Figures {
        Figures::each(job, capacity + 1, |figures, length, width| {
            let mut best = single_pieces(job, weights, capacity, length, width);
            figures.cut_length(job, length, width, &mut best);
            figures.cut_width(job, length, width, &mut best);
            best
        })
    }

    /// Figures of which each is found from those of smaller rectangles.
    pub fn each(job: &Job, shares: usize, best: impl Fn(&Figures, usize, usize) -> Vec<u64>) -> Figures {
        let cells = (job.length + 1) * (job.width + 1);
        let mut figures = Figures { width: job.width, shares, words: vec![0; cells * shares] };
        for length in 1..=job.length {
            for width in 1..=job.width {
                let best = best(&figures, length, width);
                let at = figures.start(length, width);
                figures.words[at..at + shares].copy_from_slice(&best);
            }
        }
        figures
    }

    /// The words of a rectangle.
    pub fn shares(&self) -> usize {
        self.shares
    }

    pub fn at(&self, length: usize, width: usize, share: usize) -> u64 {
        self.shares_of(length, width)[share]
    }

    /// The figures of one rectangle at the shares from 0 to the capacity.
    pub fn shares_of(&self, length: usize, width: usize) -> &[u64] {
        let at = self.start(length, width);
        &self.words[at..at + self.shares]
    }

    fn start(&self, length: usize, width: usize) -> usize {
        (length * (self.width + 1) + width) * self.shares
    }

    pub fn cut_length(&self, job: &Job, length: usize, width: usize, best: &mut [u64]) {
        for (first, second) in job.parts(length) {
            raise(best, self.shares_of(first, width), self.shares_of(second, width));
        }
    }

    pub fn cut_width(&self, job: &Job, length: usize, width: usize, best: &mut [u64]) {
        for (first, second) in job.parts(width) {
            raise(best, self.shares_of(length, first), self.shares_of(length, second));
        }
    }
}

/// At each share the most that one piece earns on a rectangle.
pub fn single_pieces(job: &Job, weights: &[u8], capacity: usize, length: usize, width: usize) -> Vec<u64> {
    let mut best = vec![0; capacity + 1];
    for piece in job.pieces().filter(|piece| piece.fits(length, width)) {
        let (price, weight) = (job.kinds[piece.kind].price, weights[piece.kind]);
        best.iter_mut().skip(weight.into()).for_each(|b| *b = price.max(*b));
    }
    best
}

/// Raises each share's figure to the best sum over the ways to split that share between two parts.
fn raise(best: &mut [u64], first: &[u64], second: &[u64]) {
    for (share, x) in first.iter().enumerate() {
        for (b, y) in best[share..].iter_mut().zip(second) {
            *b = (*b).max(x + y);
        }
    }
}
