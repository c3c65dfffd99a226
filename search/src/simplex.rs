// A small dense simplex for column generation: least cost · x where the columns' sum is the right side and x >= 0,
// from a diagonal basis. It guides the search and proves nothing.
use super::clock::Work;

/// A column and its cost.
pub type Column = (Vec<f64>, f64);

/// Pivots after which a solution is taken as it is.
const MOST_PIVOTS: usize = 20_000;

#[derive(Clone)]
pub struct Simplex {
    rows: usize,
    inverse: Vec<f64>,
    costs: Vec<f64>,
    values: Vec<f64>,
}

impl Simplex {
    pub fn new(diagonal: &[f64], costs: &[f64], right: &[f64]) -> Simplex {
        let rows = right.len();
        let mut inverse = vec![0.0; rows * rows];
        for row in 0..rows {
            inverse[row * rows + row] = 1.0 / diagonal[row];
        }
        let values = right.iter().zip(diagonal).map(|(right, diagonal)| right / diagonal).collect();
        Simplex { rows, inverse, costs: costs.to_vec(), values }
    }

    pub fn duals(&self) -> Vec<f64> {
        let mut duals = vec![0.0; self.rows];
        for (cost, row) in self.costs.iter().zip(self.inverse.chunks_exact(self.rows)) {
            if *cost != 0.0 {
                duals.iter_mut().zip(row).for_each(|(dual, entry)| *dual += cost * entry);
            }
        }
        duals
    }

    pub fn value(&self) -> f64 {
        dot(&self.values, &self.costs)
    }

    /// Pivots over columns and slacks, each `sign` in one row and without a cost, until none lowers the cost; false
    /// where there is no least. Where the work is over, the solution is taken as it is.
    pub fn solve(&mut self, columns: &[Column], sign: f64, work: &mut Work) -> bool {
        for _ in 0..MOST_PIVOTS {
            work.spend(self.rows * (2 * self.rows + columns.len()));
            if work.is_over() {
                return true;
            }
            let duals = self.duals();
            let reduced = columns.iter().map(|(column, cost)| cost - dot(column, &duals));
            let slack = duals.iter().map(|dual| -sign * dual);
            let lowest =
                reduced.chain(slack).enumerate().fold((usize::MAX, -1e-8), |least, (index, cost)| {
                    if cost < least.1 {
                        (index, cost)
                    } else {
                        least
                    }
                });
            let bounded = match lowest.0 {
                usize::MAX => return true,
                index if index < columns.len() => self.enter(&columns[index].0, columns[index].1),
                index => {
                    let mut unit = vec![0.0; self.rows];
                    unit[index - columns.len()] = sign;
                    self.enter(&unit, 0.0)
                }
            };
            if !bounded {
                return false;
            }
        }
        true
    }

    /// Brings a column in; false if no row limits it.
    fn enter(&mut self, column: &[f64], cost: f64) -> bool {
        let rows = self.rows;
        let steps: Vec<f64> = self.inverse.chunks_exact(rows).map(|row| dot(row, column)).collect();
        let Some(leaving) = self.leaving(&steps) else {
            return false;
        };
        let step = steps[leaving];
        let row: Vec<f64> =
            self.inverse[leaving * rows..(leaving + 1) * rows].iter().map(|entry| entry / step).collect();
        let value = self.values[leaving].max(0.0) / step;
        for (index, step) in steps.iter().enumerate() {
            if *step != 0.0 {
                let entries = &mut self.inverse[index * rows..(index + 1) * rows];
                entries.iter_mut().zip(&row).for_each(|(entry, new)| *entry -= step * new);
                self.values[index] -= step * value;
            }
        }
        self.inverse[leaving * rows..(leaving + 1) * rows].copy_from_slice(&row);
        self.values[leaving] = value;
        self.costs[leaving] = cost;
        true
    }

    /// The row that limits a column first; of equal ones that of the greater step.
    fn leaving(&self, steps: &[f64]) -> Option<usize> {
        let mut least: Option<(f64, usize)> = None;
        for (row, step) in steps.iter().enumerate().filter(|(_, step)| **step > 1e-9) {
            let ratio = self.values[row].max(0.0) / step;
            least = match least {
                Some((most, old)) if ratio > most + 1e-11 || ratio > most - 1e-11 && *step <= steps[old] => {
                    Some((most, old))
                }
                _ => Some((ratio, row)),
            };
        }
        least.map(|(_, row)| row)
    }
}

fn dot(first: &[f64], second: &[f64]) -> f64 {
    first.iter().zip(second).map(|(first, second)| first * second).sum()
}
