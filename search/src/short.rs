// Short orders: about how much work the exact call takes, so that it is made where it ends in time. Each cut of a
// rectangle joins every set of panels that lies in its first part with every one that lies in its second; the sets are
// counted by their areas and longest sides.
use super::proof::Basis;
use planner::answers::{PlanArrays, Refusal, Storage};
use planner::{slices, Job, Kind};

/// Ways to take copies, up to which the call answers.
const MOST_STATES: usize = 4_096;

/// The words of a list of positions, and one that is no position.
const LIST: usize = 1_021;
const NO_POSITION: u16 = u16::MAX;

/// The refusal that fills the lists and says how many words the table needs.
const TABLE_TOO_SHORT: u32 = 20;

/// The work of a word of the table, and of eight pairs of sets.
const WORD: u64 = 3;
const EIGHT_PAIRS: u64 = 8;

/// Lines of rectangles whose cuts are counted.
const MOST_LINES: usize = 16;

/// A set of copies: its area and the sides that a rectangle must have at least to hold each of them.
#[derive(Clone, Copy)]
struct Copies {
    area: u32,
    sides: [u16; 2],
}

/// Whether the exact call answers for so many copies.
pub fn is_short(counts: &[u32]) -> bool {
    let states = counts.iter().fold(1, |states: usize, count| states.saturating_mul(*count as usize + 1));
    states <= MOST_STATES
}

/// About the work of the exact call, and the words of its table; none where the order is too long for it.
pub fn exact_work(basis: &Basis) -> Option<(u64, u64)> {
    let sets = sets(&basis.job, basis.choices.turning)?;
    let (lengths, widths, words) = positions(basis)?;
    let held = |length: u16, width: u16| {
        let area = u32::from(length) * u32::from(width);
        let [most, least] = [length.max(width), length.min(width)];
        let sides = if basis.choices.turning { [most, least] } else { [length, width] };
        let small = sets.iter().take_while(|set| set.area <= area);
        small.filter(|set| set.sides[0] <= sides[0] && set.sides[1] <= sides[1]).count() as u64
    };
    let column = |width: usize| lengths.iter().map(|length| held(*length, widths[width])).collect();
    let row = |length: usize| widths.iter().map(|width| held(lengths[length], *width)).collect();
    let pairs = all_pairs(&lengths, widths.len(), column) + all_pairs(&widths, lengths.len(), row);
    Some((words * WORD + pairs / 8 * EIGHT_PAIRS, words))
}

/// All sets of copies within the demands, by rising area.
fn sets(job: &Job, turning: bool) -> Option<Vec<Copies>> {
    let mut sets = vec![Copies { area: 0, sides: [0; 2] }];
    for Kind { length, width, demand, .. } in &job.kinds {
        if sets.len() * (usize::from(*demand) + 1) > MOST_STATES {
            return None;
        }
        let own = if turning { [*length.max(width), *length.min(width)] } else { [*length, *width] };
        let area = u32::from(*length) * u32::from(*width);
        for index in 0..sets.len() {
            let Copies { area: before, sides } = sets[index];
            let sides = [sides[0].max(own[0]), sides[1].max(own[1])];
            sets.extend(
                (1..=u32::from(*demand)).map(|copies| Copies { area: before + copies * area, sides }),
            );
        }
    }
    sets.sort_by_key(|set| set.area);
    Some(sets)
}

/// The normal lengths and widths, and the words of the table that the exact call needs.
fn positions(basis: &Basis) -> Option<(Vec<u16>, Vec<u16>, u64)> {
    let (mut lengths, mut widths) = (vec![NO_POSITION; LIST], vec![NO_POSITION; LIST]);
    let storage = Storage { lengths: &mut lengths, widths: &mut widths, table: &mut [] };
    let arrays = PlanArrays { kinds: &mut [], operands: &mut [] };
    let block = basis.job.block(basis.choices);
    match slices::exact(&block, basis.choices.word(), storage, arrays) {
        Err(Refusal { number: TABLE_TOO_SHORT, place }) => {
            lengths.retain(|position| *position != NO_POSITION);
            widths.retain(|position| *position != NO_POSITION);
            Some((lengths, widths, place))
        }
        _ => None,
    }
}

/// For every cut of every line of rectangles, the number of its first part times that of its second: the sum over some
/// of the lines, as many times as there are more. `numbers` gives those of a line.
pub fn all_pairs(positions: &[u16], lines: usize, numbers: impl Fn(usize) -> Vec<u64>) -> u64 {
    let step = lines.div_ceil(MOST_LINES).max(1);
    let some = (0..lines).rev().step_by(step).map(|line| pairs(positions, &numbers(line)));
    some.fold(0, u64::saturating_add).saturating_mul(step as u64)
}

fn pairs(positions: &[u16], numbers: &[u64]) -> u64 {
    let mut pairs: u64 = 0;
    for (index, side) in positions.iter().enumerate() {
        let firsts = positions[1..index.max(1)].iter().zip(&numbers[1..]);
        for (first, number) in firsts.take_while(|(first, _)| **first <= side / 2) {
            if let Ok(second) = positions[..index].binary_search(&(side - first)) {
                pairs = pairs.saturating_add(number.saturating_mul(numbers[second]));
            }
        }
    }
    pairs
}
