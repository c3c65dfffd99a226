// The bound: refusals 1 to 9, 19, 20 and 27, and the contents of lists and table.
// Every call that fills them prepares its storage by the same steps.
use super::figures::Figures;
use super::job::Job;
use super::normal::normal_positions;
use super::refuse_if;
use super::weights::capacity;
use crate::answers::{Bound, Refusal, Storage};

/// The sides of the table's cells: the normal positions with the kerf taken off again, 0 the first of
/// them.
pub struct Cells {
    pub lengths: Vec<usize>,
    pub widths: Vec<usize>,
}

/// What the writer goes on with.
pub struct Tabled {
    pub bound: Bound,
    pub figures: Figures,
    pub cells: Cells,
}

pub fn bound(job: &[u8], choices: u32, weights: &[u8], storage: Storage) -> Result<Bound, Refusal> {
    let job = Job::read(job, choices)?;
    let capacity = capacity(&job, weights)?;
    Ok(tabled(&job, weights, capacity, storage)?.bound)
}

pub fn tabled(job: &Job, weights: &[u8], capacity: usize, storage: Storage) -> Result<Tabled, Refusal> {
    let cells = Cells::list(job, storage.lengths, storage.widths)?;
    let blocks = cells.fill(storage.table, 1, capacity + 1, || vec![Figures::of(job, weights, capacity)])?;
    let [figures] = blocks.try_into().ok().expect("one block");
    let bound = Bound {
        bound: figures.at(job.length, job.width, capacity),
        capacity: capacity as u64,
        lengths: cells.lengths.len() as u64,
        widths: cells.widths.len() as u64,
    };
    Ok(Tabled { bound, figures, cells })
}

impl Cells {
    /// Lists the normal positions: refusal 19.
    pub fn list(job: &Job, lengths: &mut [u16], widths: &mut [u16]) -> Result<Cells, Refusal> {
        let is_short = |list: &[u16], side: usize| list.len() < side + job.kerf + 1;
        refuse_if(is_short(lengths, job.length) || is_short(widths, job.width), 19, 0)?;
        let normal = normal_positions(job);
        let listed = |list: &mut [u16], positions: Vec<usize>| {
            fill(list, &positions);
            without_kerf(job, positions)
        };
        Ok(Cells { lengths: listed(lengths, normal.0), widths: listed(widths, normal.1) })
    }

    /// Fills a table of so many blocks, a cell having so many words: refusal 20.
    pub fn fill(
        &self,
        table: &mut [u64],
        blocks: usize,
        words: usize,
        figures: impl FnOnce() -> Vec<Figures>,
    ) -> Result<Vec<Figures>, Refusal> {
        let needed = blocks * self.lengths.len() * self.widths.len() * words;
        refuse_if(table.len() < needed, 20, needed)?;
        let figures = figures();
        assert_eq!(figures.len(), blocks);
        let mut cells = table.chunks_exact_mut(words);
        for block in &figures {
            for &length in &self.lengths {
                for &width in &self.widths {
                    let cell = cells.next().expect("the table has the words needed");
                    cell.copy_from_slice(block.shares_of(length, width));
                }
            }
        }
        Ok(figures)
    }
}

fn without_kerf(job: &Job, positions: Vec<usize>) -> Vec<usize> {
    positions.into_iter().map(|position| position.saturating_sub(job.kerf)).collect()
}

fn fill(list: &mut [u16], positions: &[usize]) {
    for (word, &position) in list.iter_mut().zip(positions) {
        *word = position as u16;
    }
}
