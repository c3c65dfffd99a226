// What the proved calls say of a plan, in one plain sentence: of one board the most that any plan of it is worth, of a
// whole order how few boards hold it. Nothing of the search is believed: models are checked and bounds computed anew.
use crate::{held, Floor, Modelled, Offer, Priced, Prices, Task};

/// A judged plan.
#[derive(Clone, Debug, PartialEq, Eq)]
pub enum Verdict {
    /// One board: what its panels are worth and the most that any plan of it is worth. Worth is in prices, or in square
    /// thousandths of a millimetre.
    Board { worth: u128, most: u128 },
    /// A whole order: its boards without offcuts, what they cost, and what any plan must at least have of both.
    Order { boards: u64, cost: u64, least_boards: u64, least_cost: u64, costs_differ: bool },
    /// So many panels are left over. `stock` says what is known of it.
    Short { left: u64, stock: Suffices },
}

/// Whether the stock suffices for the order.
#[derive(Clone, Copy, Debug, PartialEq, Eq)]
pub enum Suffices {
    /// It does: there are as many boards as are needed.
    Yes,
    /// It does not: its boards together hold less than the order is worth.
    No,
    Unknown,
}

impl Verdict {
    /// The verdict on a plan that leaves so many panels over.
    pub fn of_part(task: &Task, left: u64, evidence: &[Modelled], memory: u64) -> Verdict {
        let limited = task.stock.iter().all(|stock| stock.count.is_some());
        let stock = match limited.then(|| holds_less(task, evidence, memory)) {
            None => Suffices::Yes,
            Some(Some(true)) => Suffices::No,
            _ => Suffices::Unknown,
        };
        Verdict::Short { left, stock }
    }

    /// The verdict on one board that cuts so many copies of each kind.
    pub fn of_board(
        task: &Task,
        stock: usize,
        copies: &[u32],
        evidence: &[Modelled],
        memory: u64,
    ) -> Verdict {
        let worth = |copies: &[u32]| -> u128 {
            copies
                .iter()
                .zip(&task.worths)
                .map(|(copies, worth)| u128::from(*copies) * u128::from(*worth))
                .sum()
        };
        let all = worth(&task.counts());
        let bounds = evidence.iter().filter(|part| part.stock == stock);
        let bounds = bounds.filter_map(|part| most_worth(task, part, memory));
        Verdict::Board { worth: worth(copies), most: bounds.fold(all, u128::min) }
    }

    /// The verdict on a whole order whose boards are so many of each line of the stock.
    pub fn of_order(task: &Task, boards: &[u64], evidence: &[Modelled], memory: u64) -> Verdict {
        let bought = || task.stock.iter().zip(boards).filter(|(stock, _)| stock.cost > 0);
        let cost = bought().map(|(stock, boards)| stock.cost * boards).sum();
        let costs: Vec<u64> = task.stock.iter().map(|stock| stock.cost).filter(|cost| *cost > 0).collect();
        let costs_differ = costs.windows(2).any(|two| two[0] != two[1]);
        let (least_cost, least_boards) = least(task, evidence, memory).unwrap_or_else(|| at_least_one(task));
        let boards = bought().map(|(_, boards)| boards).sum();
        Verdict::Order { boards, cost, least_boards, least_cost, costs_differ }
    }

    /// Lower is better, of verdicts on one plan.
    pub fn key(&self) -> u128 {
        match *self {
            Verdict::Board { most, .. } => most,
            Verdict::Order { least_cost, .. } => u128::from(u64::MAX - least_cost),
            Verdict::Short { left, .. } => u128::from(left),
        }
    }

    pub fn is_best(&self) -> bool {
        match *self {
            Verdict::Board { worth, most } => worth >= most,
            Verdict::Order { cost, least_cost, .. } => cost <= least_cost,
            Verdict::Short { .. } => false,
        }
    }

    pub fn sentence(&self) -> String {
        match *self {
            Verdict::Board { .. } if self.is_best() => {
                "best: no guillotine plan of this board cuts panels worth more".to_string()
            }
            Verdict::Board { worth: 0, .. } => "nothing is cut, and something could be".to_string(),
            Verdict::Board { worth, most } => {
                let tenths = (1000 * (most - worth)).div_ceil(worth);
                format!("at most {}.{} % more is possible", tenths / 10, tenths % 10)
            }
            Verdict::Order { boards, cost, least_boards, least_cost, costs_differ } => {
                let noun = if boards == 1 { "board" } else { "boards" };
                match (self.is_best(), costs_differ) {
                    (true, false) => format!("{boards} {noun}: no plan needs fewer"),
                    (false, false) if least_boards == 1 => format!("{boards} {noun}, at least 1 is needed"),
                    (false, false) => format!("{boards} {noun}, at least {least_boards} are needed"),
                    (true, true) => format!("{boards} {noun} for {cost}: no plan costs less"),
                    (false, true) => {
                        format!("{boards} {noun} for {cost}, every plan costs at least {least_cost}")
                    }
                }
            }
            Verdict::Short { left, stock } => {
                let panels = match left {
                    1 => "1 panel is".to_string(),
                    left => format!("{left} panels are"),
                };
                match stock {
                    Suffices::Yes => format!("{panels} not cut"),
                    Suffices::No => format!("the stock does not suffice: {panels} left over"),
                    Suffices::Unknown => {
                        format!("{panels} left over; whether the stock suffices is not known")
                    }
                }
            }
        }
    }
}

/// The most that a plan of a board is worth, by a model that stands for the board: by its bound under weights, by its
/// Lagrangian bound, or without weights and multipliers by its optimum.
fn most_worth(task: &Task, part: &Modelled, memory: u64) -> Option<u128> {
    let prices = Prices::new(&task.worths);
    let sides = task.stock[part.stock].sides;
    let mut priced = Priced::new(task, &held(task, sides), sides, &part.model, memory)?;
    priced.set_prices(&prices.prices);
    let bound = match (part.weights[0].is_empty(), part.multipliers.is_empty()) {
        _ if !priced.is_whole() => None,
        (false, _) => priced.weighed(&part.weights),
        (true, true) => priced.exact().map(|(optimum, _)| optimum),
        (true, false) => priced.lagrangian(&part.multipliers),
    };
    Some(prices.worth(bound?))
}

/// The boards of the stock under evidence that is of every line of it, and the floor that its bounds make.
fn bounded(task: &Task, evidence: &[Modelled], memory: u64) -> Option<(Vec<Offer>, Floor)> {
    let prices = evidence.first()?.prices.clone();
    let is_of = |stock: usize| evidence.iter().any(|part| part.stock == stock);
    if prices.is_empty() || !task.usable_stock().all(is_of) {
        return None;
    }
    let mut offers = Vec::new();
    for part in evidence {
        let mut offer = Offer::new(task, part.stock, &part.model, memory)?;
        offer.priced.set_prices(&prices);
        offers.push(offer);
    }
    let bound = |offer: &Offer| Some(offer.priced.plates_needed(0)?.1);
    let bounds = offers.iter().map(bound).collect::<Option<Vec<u64>>>()?;
    let floor = Floor::new(prices, bounds, &offers);
    Some((offers, floor))
}

/// Other sizes beside the cheapest, up to which the proved call is made for sets of their boards, and how many sets.
const MOST_OTHERS: usize = 2;
const MOST_SETS: usize = 40;

/// Boards of all sizes but one: what they cost, how many they are, and the most that they hold.
#[derive(Clone, Copy, Debug, Default, PartialEq, Eq, PartialOrd, Ord)]
struct Others {
    cost: u64,
    boards: u64,
    holds: u64,
}

/// The least cost and the fewest boards that any plan has, by the bounds of all boards of the stock. Of the cheapest
/// size the proved call says how many are needed beside each set of others; sets that are not tried count alone. Of very
/// many sizes the sum of bounds says it.
fn least(task: &Task, evidence: &[Modelled], memory: u64) -> Option<(u64, u64)> {
    let (offers, floor) = bounded(task, evidence, memory)?;
    let bought = || (0..offers.len()).filter(|index| offers[*index].count.is_none());
    let cheapest = &offers[bought().min_by_key(|index| offers[*index].cost)?];
    let sizes: Vec<(u64, u64)> = bought()
        .filter(|index| !std::ptr::eq(&offers[*index], cheapest))
        .map(|index| (offers[index].cost, floor.bounds[index]))
        .collect();
    let (mut cost, mut boards) = (floor.cost, floor.least_boards(&offers));
    if sizes.len() > MOST_OTHERS {
        return Some((cost, boards));
    }
    let holds = floor.other(&offers);
    let sets = sets(&sizes, Others { holds, ..Others::default() }, cost, boards);
    for others in sets.iter().take(MOST_SETS) {
        let (plates, _) = cheapest.priced.plates_needed(others.holds)?;
        cost = cost.min(others.cost.saturating_add(plates.saturating_mul(cheapest.cost)));
        boards = boards.min(others.boards.saturating_add(plates));
    }
    for others in sets.iter().skip(MOST_SETS) {
        (cost, boards) = (cost.min(others.cost), boards.min(others.boards));
    }
    Some((cost, boards))
}

/// Sets of boards of these sizes, each with its cost and what it holds at most, beside others: all that cost less or
/// are fewer than this, the cheapest first. Of one size there are so many at most that the last of them is not tried.
fn sets(sizes: &[(u64, u64)], others: Others, most_cost: u64, most_boards: u64) -> Vec<Others> {
    let mut sets = vec![others];
    for (cost, bound) in sizes {
        let with = |others: &Others| {
            let Others { cost: before, boards, holds } = *others;
            let more = (0..=MOST_SETS as u64).map(move |number| Others {
                cost: before + number * cost,
                boards: boards + number,
                holds: holds + number * bound,
            });
            let counts = |others: &Others| others.cost < most_cost || others.boards < most_boards;
            more.take_while(counts).collect::<Vec<_>>()
        };
        sets = sets.iter().flat_map(with).collect();
    }
    sets.sort();
    sets
}

/// Where there are no offcuts, something needs a board: the cheapest.
fn at_least_one(task: &Task) -> (u64, u64) {
    let cheapest = task.stock.iter().map(|stock| stock.cost).min().unwrap_or(0);
    let needed = u64::from(!task.kinds.is_empty() && cheapest > 0);
    (needed * cheapest, needed)
}

/// Whether all boards of the stock together hold less than the order is worth.
fn holds_less(task: &Task, evidence: &[Modelled], memory: u64) -> Option<bool> {
    let (_, floor) = bounded(task, evidence, memory)?;
    let boards = evidence.iter().zip(&floor.bounds);
    let held = boards.map(|(part, bound)| Some(u64::from(task.stock[part.stock].count?) * bound));
    Some(held.sum::<Option<u64>>()? < floor.worth)
}
