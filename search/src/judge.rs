// The proved calls on the boards of a plan: `planner_true_plan` for each board, and `planner_check_rack` for all of
// them together. A board is given as its tree in a model where every panel is one by one: the calls then do the sums
// at true sizes themselves.
use super::board::Board;
use super::proof::{Entries, MOST_COPIES};
use super::task::Task;
use planner::{Error, Job, Kind, Planner, Plate, TrueSizes};

/// The plate of the model; more panels than this never lie in a row of a plan that the calls take.
const SIDE: u16 = 1_000;

/// Plates that a rack takes, and nodes that its plans may have together.
const RACK: usize = 16;
const NODES: usize = 4_095;

/// Memory for the calls that fill no table.
const NO_TABLE: u64 = 0;

/// Gives the copies of kinds their numbers in a block, each entry as often as it says.
struct Numbers {
    left: Vec<(usize, u16)>,
}

impl Numbers {
    fn next(&mut self, kind: usize) -> u16 {
        let open = |entry: &(usize, u16)| entry.0 == kind && entry.1 > 0;
        let number = self.left.iter().position(open).unwrap_or(self.left.len());
        if let Some(entry) = self.left.get_mut(number) {
            entry.1 -= 1;
        }
        number as u16
    }
}

/// Whether the calls take boards of so many panels: longer ones are replayed by the saw alone.
fn is_short(board: &Board) -> bool {
    2 * board.kinds().len() <= NODES && board.kinds().len() <= usize::from(SIDE)
}

/// Passes every board through the proved calls. Boards with more panels or kinds than the calls take are passed over.
pub fn judge(task: &Task, boards: &[Board]) -> Result<(), Error> {
    let short: Vec<&Board> = boards.iter().filter(|board| is_short(board) && !board.is_empty()).collect();
    short.iter().try_for_each(|board| judge_board(task, board))?;
    let mut left = task.counts();
    let mut rest = &short[..];
    while !rest.is_empty() {
        let (rack, after) = rest.split_at(one_rack(task, rest).max(1));
        check_rack(task, &mut left, rack)?;
        rest = after;
    }
    Ok(())
}

/// How many of the first boards a rack takes: so many plates, nodes and kinds.
fn one_rack(task: &Task, boards: &[&Board]) -> usize {
    let mut cut = vec![0; task.kinds.len()];
    let mut nodes = 0;
    let passes = |board: &&Board| {
        nodes += 2 * count(board, &mut cut);
        nodes > NODES || !Entries::new(&cut).whole
    };
    boards.iter().take(RACK).position(passes).unwrap_or(boards.len().min(RACK))
}

/// Adds the copies of each kind on a board, and gives how many there are.
fn count(board: &Board, cut: &mut [u32]) -> usize {
    let kinds = board.kinds();
    kinds.iter().for_each(|kind| cut[*kind] += 1);
    kinds.len()
}

fn job(task: &Task, entries: &[(usize, u16)]) -> Job {
    let kind = |(kind, demand): &(usize, u16)| Kind {
        length: 1,
        width: 1,
        price: 1,
        demand: *demand,
        grain: task.kinds[*kind].keeps_grain(),
    };
    Job { length: SIDE, width: SIDE, kerf: 0, kinds: entries.iter().map(kind).collect() }
}

fn judge_board(task: &Task, board: &Board) -> Result<(), Error> {
    let mut counts = vec![0; task.kinds.len()];
    board.kinds().into_iter().for_each(|kind| counts[kind] += 1);
    let entries = Entries::new(&counts);
    if !entries.whole || entries.entries.is_empty() {
        return Ok(());
    }
    let job = job(task, &entries.entries);
    let kinds = entries.entries.iter().map(|(kind, _)| task.kinds[*kind].sides).collect();
    let [length, width] = task.stock[board.stock].sides;
    let sizes = TrueSizes { length, width, kerf: task.kerf, kinds };
    let mut numbers = Numbers { left: entries.entries };
    let tree = board.model_tree(&|_| [1, 1], &mut |kind| numbers.next(kind));
    Planner::new(&job, task.choices(), NO_TABLE).true_plan(&sizes, &tree.plan())?;
    Ok(())
}

/// Checks boards that share the copies of the order that earlier ones have left. Of kinds that they do not have, and of
/// those that have more copies left than a block takes, no more is demanded than they can have.
fn check_rack(task: &Task, left: &mut [u32], boards: &[&Board]) -> Result<(), Error> {
    let mut cut = vec![0; task.kinds.len()];
    for board in boards {
        count(board, &mut cut);
    }
    let blocks = |copies: u32| copies.div_ceil(MOST_COPIES) * MOST_COPIES;
    let demands: Vec<u32> = left.iter().zip(&cut).map(|(left, cut)| *left.min(&blocks(*cut))).collect();
    let entries = Entries::new(&demands);
    left.iter_mut().zip(cut).for_each(|(left, cut)| *left = left.saturating_sub(cut));
    if !entries.whole {
        return Ok(());
    }
    let job = job(task, &entries.entries);
    let mut numbers = Numbers { left: entries.entries };
    let mut plate = |board: &&Board| {
        let tree = board.model_tree(&|_| [1, 1], &mut |kind| numbers.next(kind));
        Plate { length: SIDE, width: SIDE, tree }
    };
    let plates: Vec<Plate> = boards.iter().map(&mut plate).collect();
    Planner::new(&job, task.choices(), NO_TABLE).check_rack(&plates)?;
    Ok(())
}
