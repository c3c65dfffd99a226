// The most that a guillotine tree within the demands earns, by trying every tree: for tiny jobs. Each
// cut loses the kerf.
// The copies that remain of every kind are one number of mixed radix, kind 0 lowest.
use outside::blocks::job_s;
use outside::reference::Job;

/// How amounts are numbered, the first of them lowest: remaining copies, or shares of a capacity.
pub struct Amounts {
    radix: Vec<usize>,
    pub states: usize,
}

pub fn optimum(job: &Job) -> u64 {
    *optima(job).last().expect("a state")
}

/// The most within each number of copies of every kind.
pub fn optima(job: &Job) -> Vec<u64> {
    let copies = Amounts::of_copies(job);
    let splits = copies.splits();
    let mut most = vec![vec![vec![0; copies.states]; job.width + 1]; job.length + 1];
    for length in 1..=job.length {
        for width in 1..=job.width {
            let mut best = single_pieces(job, &copies, length, width);
            for (first, second) in job.parts(length) {
                raise(&mut best, &most[first][width], &most[second][width], &splits);
            }
            for (first, second) in job.parts(width) {
                raise(&mut best, &most[length][first], &most[length][second], &splits);
            }
            most[length][width] = best;
        }
    }
    most.swap_remove(job.length).swap_remove(job.width)
}

fn single_pieces(job: &Job, copies: &Amounts, length: usize, width: usize) -> Vec<u64> {
    let mut best = vec![0; copies.states];
    for piece in job.pieces().filter(|piece| piece.fits(length, width)) {
        let price = job.kinds[piece.kind].price;
        let left = |state: &usize| copies.digits(*state)[piece.kind] > 0;
        (0..copies.states).filter(left).for_each(|state| best[state] = price.max(best[state]));
    }
    best
}

/// Raises each state to the best sum over the ways to share its copies out to two parts.
pub fn raise(best: &mut [u64], first: &[u64], second: &[u64], splits: &[(usize, usize)]) {
    for &(a, b) in splits {
        best[a + b] = best[a + b].max(first[a] + second[b]);
    }
}

impl Amounts {
    /// Amounts up to these.
    pub fn up_to(most: impl Iterator<Item = usize>) -> Amounts {
        let radix: Vec<usize> = most.map(|most| most + 1).collect();
        let states = radix.iter().product();
        Amounts { radix, states }
    }

    pub fn of_copies(job: &Job) -> Amounts {
        Amounts::up_to(job.kinds.iter().map(|kind| kind.demand as usize))
    }

    /// The number of these amounts; none where one is too great.
    pub fn number(&self, digits: &[usize]) -> Option<usize> {
        let within = digits.iter().zip(&self.radix).all(|(digit, radix)| digit < radix);
        let lower = |number, (digit, radix): (&usize, &usize)| number * radix + digit;
        within.then(|| digits.iter().zip(&self.radix).rev().fold(0, lower))
    }

    /// Of so many kinds the number of one copy.
    pub fn copies_of_each(&self, kinds: usize) -> Vec<Option<usize>> {
        let one = |kind| (0..kinds).map(|other| usize::from(other == kind)).collect::<Vec<usize>>();
        (0..kinds).map(|kind| self.number(&one(kind))).collect()
    }

    pub fn digits(&self, mut state: usize) -> Vec<usize> {
        let mut next = |radix: &usize| {
            let digit = state % radix;
            state /= radix;
            digit
        };
        self.radix.iter().map(&mut next).collect()
    }

    /// The pairs of states whose amounts together are within the limits.
    pub fn splits(&self) -> Vec<(usize, usize)> {
        let digits: Vec<Vec<usize>> = (0..self.states).map(|state| self.digits(state)).collect();
        let within = |a: usize, b: usize| {
            let sums = digits[a].iter().zip(&digits[b]).map(|(x, y)| x + y);
            sums.zip(&self.radix).all(|(sum, radix)| sum < *radix)
        };
        let pairs = (0..self.states).flat_map(|a| (0..self.states - a).map(move |b| (a, b)));
        pairs.filter(|&(a, b)| within(a, b)).collect()
    }
}

#[test]
fn the_optimum_of_s() {
    assert_eq!(optimum(&Job::read(&job_s(), 0).expect("job S")), 16);
}
