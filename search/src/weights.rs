// Weights for the bound by a small integer program: the least capacity that keeps every plan met so far out. A plan
// that passes a demand is out where its weights add up to more than the capacity. It guides the search and proves
// nothing: whatever the weights, the proved calls answer a bound that holds.
use super::clock::Work;
use super::simplex::{Column, Simplex};

/// The most that a weight may be.
const MOST_WEIGHT: f64 = 255.0;

/// How far from a whole number a weight may be that counts as one.
const CLOSE: f64 = 1e-6;

/// The copies of each kind that the capacity counts, and the copies in each plan that is to be out.
#[derive(Clone, Debug, Default)]
pub struct Barred {
    pub counted: Vec<u32>,
    pub plans: Vec<Vec<u32>>,
}

/// A search over whole weights: the least capacity so far, and the weights that have it.
struct Branching<'a> {
    most: f64,
    weights: Option<Vec<u8>>,
    work: &'a mut Work,
}

impl Barred {
    pub fn capacity(&self, weights: &[u8]) -> u32 {
        self.counted.iter().zip(weights).map(|(count, weight)| count * u32::from(*weight)).sum()
    }

    /// Whether a plan weighs more than the capacity.
    pub fn keeps_out(&self, weights: &[u8], plan: &[u32]) -> bool {
        let weight: u32 = plan.iter().zip(weights).map(|(copies, weight)| copies * u32::from(*weight)).sum();
        weight > self.capacity(weights)
    }

    /// Weights of the least capacity, at most this, that keep all plans out; none where there are none or the work
    /// does not suffice to find any.
    pub fn weights(&self, most: u32, work: &mut Work) -> Option<Vec<u8>> {
        let kinds = self.counted.len();
        let right: Vec<f64> = self.counted.iter().map(|count| f64::from(*count)).collect();
        let simplex = Simplex::new(&vec![1.0; kinds], &vec![0.0; kinds], &right);
        let mut columns: Vec<Column> = self.plans.iter().map(|plan| self.column(plan)).collect();
        let mut branching = Branching { most: f64::from(most), weights: None, work };
        branching.branch(simplex, &mut columns);
        branching.weights
    }

    /// A plan as a column of the dual program: its weights must add up to one more than the capacity.
    fn column(&self, plan: &[u32]) -> Column {
        let over =
            plan.iter().zip(&self.counted).map(|(copies, count)| f64::from(*copies) - f64::from(*count));
        (over.collect(), -1.0)
    }
}

impl Branching<'_> {
    /// Solves without whole weights, and parts the weight that is least whole upwards and downwards.
    fn branch(&mut self, mut simplex: Simplex, columns: &mut Vec<Column>) {
        if !simplex.solve(columns, 1.0, self.work) || self.work.is_over() {
            return;
        }
        let capacity = (-simplex.value() - CLOSE).ceil();
        let weights: Vec<f64> = simplex.duals().iter().map(|dual| -dual).collect();
        if capacity > self.most || weights.iter().any(|weight| *weight > MOST_WEIGHT) {
            return;
        }
        let part = |weight: f64| (weight - weight.round()).abs();
        let least_whole = (0..weights.len()).max_by(|a, b| part(weights[*a]).total_cmp(&part(weights[*b])));
        let Some(kind) = least_whole.filter(|kind| part(weights[*kind]) > CLOSE) else {
            self.most = capacity - 1.0;
            self.weights = Some(weights.iter().map(|weight| weight.round() as u8).collect());
            return;
        };
        for (sign, limit) in [(1.0, weights[kind].ceil()), (-1.0, -weights[kind].floor())] {
            let mut column = vec![0.0; weights.len()];
            column[kind] = sign;
            columns.push((column, -limit));
            self.branch(simplex.clone(), columns);
            columns.pop();
        }
    }
}

#[cfg(test)]
mod tests {
    use super::*;
    use crate::clock::{Clock, SECOND};

    fn weights(barred: &Barred, most: u32) -> Option<Vec<u8>> {
        barred.weights(most, &mut Work::new(SECOND, Clock::new(None)))
    }

    /// The least capacity up to 12 over all weights of three kinds, by trying all.
    fn least(barred: &Barred) -> Option<u32> {
        let all =
            (0..13u32.pow(3)).map(|code| [code % 13, code / 13 % 13, code / 169].map(|weight| weight as u8));
        let out = |weights: &[u8; 3]| barred.plans.iter().all(|plan| barred.keeps_out(weights, plan));
        all.filter(out).map(|weights| barred.capacity(&weights)).filter(|capacity| *capacity <= 12).min()
    }

    #[test]
    fn weights_are_of_least_capacity() {
        let mut dice = crate::dice::Dice::new(5);
        for _ in 0..200 {
            let counted: Vec<u32> = (0..3).map(|_| 1 + dice.below(3) as u32).collect();
            let plan =
                |dice: &mut crate::dice::Dice| (0..3).map(|_| dice.below(6) as u32).collect::<Vec<u32>>();
            let plans: Vec<Vec<u32>> = (0..3).map(|_| plan(&mut dice)).collect();
            let barred = Barred { counted, plans };
            let found = weights(&barred, 12).map(|weights| barred.capacity(&weights));
            assert_eq!(found, least(&barred), "{barred:?}");
        }
    }
}
