// Plans and judges orders, each in one call: the search finds boards, the proved calls pass them and bound all others,
// and the outcome has boards, verdict and what the verdict follows from.
use crate::error::Error;
use crate::order::Order;
use crate::outcome::{self, Board, Outcome};
use crate::plan::{Saw, Tree};
use crate::verdict::Verdict;
use crate::{
    bounds_of_board, bounds_of_order, judge, one, whole, Clock, Limits, Modelled, Packing, Progress, Task,
};
use std::thread;
use std::time::Duration;

/// The stack on which plans are walked: they may be deep.
const STACK: usize = 256 << 20;

/// Plans that somebody has drawn or filed, each with the line of the stock that it is for, and what may judge them.
#[derive(Clone, Debug)]
pub struct Filed {
    pub boards: Vec<(usize, Tree)>,
    /// One board was planned, or else the whole order.
    pub one: bool,
    pub evidence: Vec<Modelled>,
}

/// Runs work that walks deep plans, on a stack of its own.
pub fn on_deep_stack<T: Send>(work: impl FnOnce() -> T + Send) -> T {
    thread::scope(|scope| {
        let running = thread::Builder::new().stack_size(STACK).spawn_scoped(scope, work);
        running.expect("a thread for the work").join().expect("work that ends")
    })
}

/// Plans a whole order: every panel on boards that cost as little as possible, and what any plan must at least cost.
pub fn plan_order(order: Order, limits: Limits, progress: &Progress) -> Result<Outcome, Error> {
    checked(&order)?;
    on_deep_stack(|| {
        let task = Task::new(&order);
        let found = whole(&task, Clock::new(limits.seconds), limits.memory, progress);
        let evidence = found.proof.map(|proof| proof.modelled).unwrap_or_default();
        judged(order, &task, false, &found.packing, evidence, limits.memory)
    })
}

/// Plans one board, of the first line of the stock that is no offcut: the panels that are worth most together, and the
/// most that any plan of it is worth.
pub fn plan_board(order: Order, limits: Limits, progress: &Progress) -> Result<Outcome, Error> {
    checked(&order)?;
    on_deep_stack(|| {
        let task = Task::new(&order);
        let found = one(&task, first_board(&task), Clock::new(limits.seconds), limits.memory, progress);
        let evidence = found.ceiling.map(|ceiling| ceiling.modelled).into_iter().collect();
        judged(order, &task, true, &found.packing, evidence, limits.memory)
    })
}

fn checked(order: &Order) -> Result<(), Error> {
    order.check().map_err(|fault| Error::Order { words: fault.in_order(order), fault })
}

/// The line of the stock that one board is planned on: the first that is no offcut.
fn first_board(task: &Task) -> usize {
    task.stock.iter().position(|stock| stock.cost > 0).unwrap_or(0)
}

fn judged(
    order: Order,
    task: &Task,
    one: bool,
    packing: &Packing,
    evidence: Vec<Modelled>,
    memory: u64,
) -> Result<Outcome, Error> {
    judge(task, &packing.boards).map_err(Error::Call)?;
    let mut boards = outcome::boards(&order, task, packing);
    if one && boards.is_empty() {
        boards = vec![Board::new(&order, first_board(task), Tree::Rest).expect("a board that is left whole")];
    }
    let verdict = verdict(task, &boards, one, &evidence, memory);
    Ok(Outcome { order, one, boards, verdict, evidence })
}

/// The verdict of the proved calls on boards that the saw can cut.
fn verdict(task: &Task, boards: &[Board], one: bool, evidence: &[Modelled], memory: u64) -> Verdict {
    let kind_of = |panel: usize| task.kinds.iter().position(|kind| kind.panels.contains(&panel));
    let mut copies = vec![0; task.kinds.len()];
    for kind in boards.iter().flat_map(|board| &board.layout.panels).filter_map(|laid| kind_of(laid.panel)) {
        copies[kind] += 1;
    }
    let evidence: Vec<Modelled> = evidence.iter().filter(|part| part.is_of(task)).cloned().collect();
    if let (true, [board]) = (one, boards) {
        return Verdict::of_board(task, board.plate, &copies, &evidence, memory);
    }
    let left =
        task.kinds.iter().zip(&copies).map(|(kind, cut)| u64::from(kind.count.saturating_sub(*cut))).sum();
    if left > 0 {
        return Verdict::of_part(task, left, &evidence, memory);
    }
    let mut used = vec![0; task.stock.len()];
    boards.iter().for_each(|board| used[board.plate] += 1);
    Verdict::of_order(task, &used, &evidence, memory)
}

/// Saws filed plans again, counts their panels and judges them, with what was filed and with what a search for bounds
/// finds, unless it has no time.
pub fn judge_plans(order: Order, filed: Filed, limits: Limits) -> Result<Outcome, Error> {
    checked(&order)?;
    on_deep_stack(|| {
        let boards = sawn(&order, filed.boards)?;
        within_order(&order, &boards)?;
        let task = Task::new(&order);
        let (one, mut evidence) = (filed.one, filed.evidence);
        let now = verdict(&task, &boards, one, &evidence, limits.memory);
        if !now.is_best() && limits.seconds != Some(Duration::ZERO) {
            let clock = Clock::new(limits.seconds);
            let found = match (one, &boards[..]) {
                (true, [board]) => bounds_of_board(&task, board.plate, clock, limits.memory),
                _ => bounds_of_order(&task, clock, limits.memory),
            };
            if verdict(&task, &boards, one, &found, limits.memory).key() < now.key() {
                evidence = found;
            }
        }
        let verdict = verdict(&task, &boards, one, &evidence, limits.memory);
        Ok(Outcome { order, one, boards, verdict, evidence })
    })
}

/// The boards of plans, every panel brought to its size.
fn sawn(order: &Order, plans: Vec<(usize, Tree)>) -> Result<Vec<Board>, Error> {
    let panels = order.panel_sides();
    let saw = Saw { kerf: order.kerf(), panels: &panels };
    let board = |(plate, tree): (usize, Tree)| {
        let sides = order.plates.get(plate).ok_or(Error::NoPlate(plate))?.sides();
        if let Some(panel) = tree.panels().into_iter().find(|panel| *panel >= panels.len()) {
            return Err(Error::NoPanel(panel));
        }
        let board = Board::new(order, plate, saw.sawn(tree, sides));
        board.map_err(|misfit| Error::Misfit { misfit, words: misfit.in_order(order) })
    };
    plans.into_iter().map(board).collect()
}

/// No panel is cut more often than it is ordered, none is turned against its grain or lies on a raw edge, no plan has
/// too many stages, and no more plates are used than there are.
fn within_order(order: &Order, boards: &[Board]) -> Result<(), Error> {
    let mut copies = vec![0; order.panels.len()];
    let mut plates = vec![0; order.plates.len()];
    for board in boards {
        within_board(order, board)?;
        plates[board.plate] += 1;
        board.layout.panels.iter().for_each(|laid| copies[laid.panel] += 1);
    }
    let mut cut = order.panels.iter().zip(copies);
    if let Some((panel, cut)) = cut.find(|(panel, cut)| *cut > panel.count) {
        return Err(Error::Copies { panel: panel.name.clone(), cut, ordered: panel.count });
    }
    let mut used = order.plates.iter().zip(plates);
    let too_many =
        used.find_map(|(plate, used)| Some((plate, used, plate.count.filter(|count| used > *count)?)));
    match too_many {
        Some((plate, used, count)) => Err(Error::Plates { sides: plate.sides(), used, count }),
        None => Ok(()),
    }
}

/// No panel of a board is turned against its grain or lies on a raw edge, and its plan has not too many stages.
fn within_board(order: &Order, board: &Board) -> Result<(), Error> {
    let plate = &order.plates[board.plate];
    let trim = if plate.offcut { 0 } else { order.trim.thousandths() };
    let of_edges = if trim > 0 { 2 } else { 0 };
    if let Some(limit) = order.stages.filter(|limit| board.tree.stages() > limit + of_edges) {
        return Err(Error::Stages(limit));
    }
    for laid in &board.layout.panels {
        let panel = &order.panels[laid.panel];
        if laid.turned && !panel.turns && panel.sides[0] != panel.sides[1] {
            return Err(Error::Turned { panel: panel.name.clone() });
        }
        if !laid.rect.is_within(plate.sides(), trim) {
            return Err(Error::RawEdge { panel: panel.name.clone() });
        }
    }
    Ok(())
}
