// Bounds by column generation: a simplex finds prices or multipliers, and the proved calls answer what follows from
// them. One board: the most that it can hold within the order. Whole orders: what every plan must at least cost.
use super::clock::Work;
use super::model::Model;
use super::proof::{Answer, Priced, MOST_PRICE};
use super::simplex::{Column, Simplex};
use super::task::{Stock, Task};

/// Multipliers and the Lagrangian bound that they give.
#[derive(Clone, Debug)]
pub struct Lagrange {
    pub bound: u64,
    pub multipliers: Vec<u32>,
}

/// The share of the best multipliers so far in those that are tried first.
const STEADY: f64 = 0.6;

/// A board whose prices are lowered by multipliers.
struct Lowered<'a> {
    board: Priced,
    prices: &'a [u32],
    best: Option<Lagrange>,
    /// The best multipliers, before they were rounded.
    steady: Vec<f64>,
    calls: usize,
}

impl Lowered<'_> {
    /// Tries multipliers, keeps the least bound, and gives the plan behind it as a column, if it is not too long.
    fn try_out(&mut self, at: Vec<f64>, work: &mut Work) -> Option<Option<Column>> {
        let whole = |(at, price): (&f64, &u32)| at.round().clamp(0.0, f64::from(*price)) as u32;
        let multipliers: Vec<u32> = at.iter().zip(self.prices).map(whole).collect();
        let left: Vec<u32> = self.prices.iter().zip(&multipliers).map(|(price, less)| price - less).collect();
        self.board.set_prices(&left);
        let Answer { bound, copies } = self.board.price(self.prices.len(), work)?;
        self.calls += 1;
        let charge = |(kind, copies): &(usize, u16)| u64::from(multipliers[*kind]) * u64::from(*copies);
        let bound = bound + self.board.entries.entries.iter().map(charge).sum::<u64>();
        if self.best.as_ref().is_none_or(|best| bound < best.bound) {
            self.best = Some(Lagrange { bound, multipliers });
            self.steady = at;
        }
        Some(copies.map(|mut column| {
            let earned = column.iter().zip(self.prices).map(|(copies, price)| copies * f64::from(*price));
            let cost = -earned.sum::<f64>();
            column.push(1.0);
            (column, cost)
        }))
    }
}

/// The least Lagrangian bound of a board under its prices: for all multipliers m, no plan within the order earns more
/// than the bound at prices less m, and m for every copy ordered. It starts from multipliers of another model.
pub fn lagrange(
    counts: &[u32],
    board: &Priced,
    prices: &[u32],
    start: &[u32],
    most_calls: usize,
    work: &mut Work,
) -> Option<Lagrange> {
    let kinds = prices.len();
    let mut right: Vec<f64> = counts.iter().map(|count| f64::from(*count)).collect();
    right.push(1.0);
    let mut simplex = Simplex::new(&vec![1.0; kinds + 1], &vec![0.0; kinds + 1], &right);
    let mut lowered =
        Lowered { board: board.clone(), prices, best: None, steady: vec![0.0; kinds], calls: 0 };
    let mut columns: Vec<Column> = Vec::new();
    if start.len() == kinds {
        let start = start.iter().map(|at| f64::from(*at)).collect();
        columns.extend(lowered.try_out(start, work)?);
    }
    loop {
        simplex.solve(&columns, 1.0, work);
        let value = -simplex.value();
        let duals: Vec<f64> = simplex.duals().iter().map(|dual| -dual).collect();
        let mut gained = false;
        for share in [STEADY, 0.0] {
            let Some((column, cost)) = lowered.try_out(mixed(share, &lowered.steady, &duals), work)? else {
                return lowered.best;
            };
            if cost + column.iter().zip(&duals).map(|(copies, dual)| copies * dual).sum::<f64>() < -0.5 {
                gained = true;
                columns.push((column, cost));
                break;
            }
        }
        let reached = lowered.best.as_ref().is_some_and(|best| (best.bound as f64) < value + 1.0);
        if !gained || reached || lowered.calls >= most_calls || work.is_over() {
            return lowered.best;
        }
    }
}

/// So large a share of the first numbers, and the rest of the second.
fn mixed(share: f64, first: &[f64], second: &[f64]) -> Vec<f64> {
    first.iter().zip(second).map(|(first, second)| share * first + (1.0 - share) * second).collect()
}

/// Prices under which whole orders are bounded, and the bound of every board of the stock under them.
#[derive(Clone, Debug)]
pub struct Floor {
    pub prices: Vec<u32>,
    /// In the order of the boards that were given; offcuts too.
    pub bounds: Vec<u64>,
    /// The worth of all entries under the prices.
    pub worth: u64,
    /// What follows: no plan costs less.
    pub cost: u64,
}

/// A board of the stock with its model: what it costs, and how many there are, if that limits it.
pub struct Offer {
    pub priced: Priced,
    pub cost: u64,
    pub count: Option<u32>,
    pub sides: crate::plan::Sides,
}

impl Offer {
    /// A board of the stock under a model; none where the model does not stand for it.
    pub fn new(task: &Task, stock: usize, model: &Model, memory: u64) -> Option<Offer> {
        let Stock { sides, count, cost } = task.stock[stock];
        let priced = Priced::new(task, &task.bounded_counts(), sides, model, memory)?;
        Some(Offer { priced, cost, count: if cost == 0 { count } else { None }, sides })
    }
}

/// The best floor that is found, up to what a plan costs. It starts from prices of other models.
pub fn floor(
    task: &Task,
    offers: &mut [Offer],
    start: &[u32],
    enough: u64,
    most_calls: usize,
    work: &mut Work,
) -> Option<Floor> {
    let kinds = task.kinds.len();
    let mut master = Master::new(task, offers);
    let mut best: Option<Floor> = None;
    let mut steady: Option<Vec<f64>> = None;
    if start.len() == kinds {
        let (floor, plans) = priced(offers, start.to_vec(), work)?;
        plans.into_iter().enumerate().for_each(|(index, plan)| master.add(index, offers[index].cost, plan));
        steady = Some(floor.duals(offers));
        best = Some(floor);
    }
    for _ in 0..most_calls {
        master.simplex.solve(&master.columns, -1.0, work);
        let duals = master.simplex.duals();
        let value = master.simplex.value();
        let (mut gained, mut long) = (false, false);
        for share in [STEADY, 0.0] {
            let at = steady.as_ref().map_or(duals[..kinds].to_vec(), |steady| mixed(share, steady, &duals));
            let (floor, plans) = priced(offers, whole_prices(&at), work)?;
            for (index, plan) in plans.into_iter().enumerate() {
                long |= plan.is_empty();
                if master.gains(index, offers[index].cost, &plan, &duals) {
                    gained = true;
                    master.add(index, offers[index].cost, plan);
                }
            }
            if best.as_ref().is_none_or(|best| floor.ratio(offers) > best.ratio(offers)) {
                steady = Some(floor.duals(offers));
                best = Some(floor);
            }
            if gained || long {
                break;
            }
        }
        let cost = best.as_ref().map_or(0, |best| best.cost);
        let closed = enough < u64::MAX && cost >= (value - 1e-6).ceil() as u64;
        if !gained || long || cost >= enough || closed || work.is_over() {
            break;
        }
    }
    best
}

/// The floor under prices, and for each board the plan behind its bound, empty where that is too long.
fn priced(offers: &mut [Offer], prices: Vec<u32>, work: &mut Work) -> Option<(Floor, Vec<Vec<f64>>)> {
    let (mut bounds, mut plans) = (Vec::new(), Vec::new());
    for offer in offers.iter_mut() {
        offer.priced.set_prices(&prices);
        let Answer { bound, copies } = offer.priced.price(prices.len(), work)?;
        bounds.push(bound);
        plans.push(copies.unwrap_or_default());
    }
    Some((Floor::new(prices, bounds, offers), plans))
}

fn whole_prices(duals: &[f64]) -> Vec<u32> {
    let scale = MOST_PRICE as f64 / duals.iter().copied().fold(1e-9, f64::max);
    duals.iter().map(|dual| (dual * scale).clamp(0.0, MOST_PRICE as f64) as u32).collect()
}

impl Floor {
    pub fn new(prices: Vec<u32>, bounds: Vec<u64>, offers: &[Offer]) -> Floor {
        let entries = &offers[0].priced.entries.entries;
        let worth = entries.iter().map(|(kind, copies)| u64::from(prices[*kind]) * u64::from(*copies)).sum();
        let mut floor = Floor { prices, bounds, worth, cost: 0 };
        floor.cost = floor.least_cost(offers);
        floor
    }

    /// What the boards beside those that are bought hold at most.
    pub fn other(&self, offers: &[Offer]) -> u64 {
        let free = offers
            .iter()
            .zip(&self.bounds)
            .filter_map(|(offer, bound)| Some(u64::from(offer.count?) * bound));
        free.sum()
    }

    /// The least cost of boards whose bounds add up to the worth that the free ones leave.
    fn least_cost(&self, offers: &[Offer]) -> u64 {
        self.least(offers, |offer| offer.cost)
    }

    /// The fewest boards likewise.
    pub fn least_boards(&self, offers: &[Offer]) -> u64 {
        self.least(offers, |_| 1)
    }

    fn least(&self, offers: &[Offer], cost: impl Fn(&Offer) -> u64) -> u64 {
        let need = self.worth.saturating_sub(self.other(offers));
        let bought = offers.iter().zip(&self.bounds).filter(|(offer, _)| offer.count.is_none());
        let boards: Vec<(u64, u64)> = bought.map(|(offer, bound)| (cost(offer), *bound)).collect();
        least_cost(&boards, need)
    }

    /// The prices as duals: scaled so that no board that is bought holds more than it costs.
    fn duals(&self, offers: &[Offer]) -> Vec<f64> {
        let each = self.each(offers);
        self.prices.iter().map(|price| if each > 0.0 { f64::from(*price) / each } else { 0.0 }).collect()
    }

    /// The most that a board that is bought holds for its cost.
    fn each(&self, offers: &[Offer]) -> f64 {
        let bought = offers.iter().zip(&self.bounds).filter(|(offer, _)| offer.count.is_none());
        bought.map(|(offer, bound)| *bound as f64 / (offer.cost as f64).max(1e-9)).fold(0.0, f64::max)
    }

    /// The cost that linear prices give, for telling close floors apart.
    fn ratio(&self, offers: &[Offer]) -> f64 {
        let (need, each) = (self.worth.saturating_sub(self.other(offers)) as f64, self.each(offers));
        if each > 0.0 {
            need / each
        } else {
            0.0
        }
    }
}

/// The least cost of boards, each with its cost and what it holds at most, that hold so much together. Of more than
/// three sizes the best ratio is taken for all.
fn least_cost(boards: &[(u64, u64)], need: u64) -> u64 {
    let holding: Vec<(u64, u64)> = boards.iter().copied().filter(|(_, bound)| *bound > 0).collect();
    match holding[..] {
        _ if need == 0 => 0,
        [] => u64::MAX,
        [(cost, bound)] => cost * need.div_ceil(bound),
        [(cost, bound), ref rest @ ..] if rest.len() < 3 => {
            let most = need.div_ceil(bound);
            let with = |number: u64| cost * number + least_cost(rest, need.saturating_sub(number * bound));
            (0..=most).map(with).min().unwrap_or(0)
        }
        _ => holding
            .iter()
            .map(|(cost, bound)| (u128::from(*cost) * u128::from(need) / u128::from(*bound)) as u64)
            .min()
            .unwrap_or(0),
    }
}

/// The linear program over plans of single boards: every kind at least as often as it is ordered, free boards at most
/// as often as there are.
struct Master {
    simplex: Simplex,
    columns: Vec<Column>,
    /// The row of each free board.
    rows: Vec<Option<usize>>,
    rows_in_all: usize,
}

/// The cost of a board for kinds that fit none that is bought.
const DEAR: f64 = 1e4;

impl Master {
    /// From boards that hold copies of one kind alone.
    fn new(task: &Task, offers: &[Offer]) -> Master {
        let kinds = task.kinds.len();
        let mut right: Vec<f64> = task.counts().iter().map(|count| f64::from(*count)).collect();
        let (mut diagonal, mut costs) = (vec![1.0; kinds], vec![DEAR; kinds]);
        for offer in offers.iter().filter(|offer| offer.count.is_none()) {
            for kind in 0..kinds {
                for turned in task.ways(kind, offer.sides) {
                    let (panel, room) = (task.wide(kind, turned), task.room(offer.sides));
                    let copies = f64::from(room[0] / panel[0]) * f64::from(room[1] / panel[1]);
                    let cost = offer.cost as f64;
                    if cost / copies < costs[kind] / diagonal[kind] {
                        (diagonal[kind], costs[kind]) = (copies, cost);
                    }
                }
            }
        }
        let mut rows = Vec::new();
        for offer in offers {
            rows.push(offer.count.map(|_| right.len()));
            if let Some(count) = offer.count {
                right.push(-f64::from(count));
                diagonal.push(-1.0);
                costs.push(0.0);
            }
        }
        let unit = |kind: usize| {
            let mut column = vec![0.0; right.len()];
            column[kind] = diagonal[kind];
            (column, costs[kind])
        };
        let columns = (0..kinds).map(unit).collect();
        Master { simplex: Simplex::new(&diagonal, &costs, &right), columns, rows, rows_in_all: right.len() }
    }

    /// The plan of a board as a column.
    fn column(&self, offer: usize, plan: &[f64]) -> Vec<f64> {
        let mut column = plan.to_vec();
        column.resize(self.rows_in_all, 0.0);
        if let Some(row) = self.rows[offer] {
            column[row] = -1.0;
        }
        column
    }

    /// Whether the plan of a board can lower the cost.
    fn gains(&self, offer: usize, cost: u64, plan: &[f64], duals: &[f64]) -> bool {
        let column = self.column(offer, plan);
        let worth: f64 = column.iter().zip(duals).map(|(copies, dual)| copies * dual).sum();
        worth > cost as f64 + 1e-6
    }

    fn add(&mut self, offer: usize, cost: u64, plan: Vec<f64>) {
        self.columns.push((self.column(offer, &plan), cost as f64));
    }
}
