// The jobs that are measured. All are generated from fixed seeds, so every run has the same.
// Prices are areas with a premium of up to a quarter; demands are raised until Q is as wanted, which
// counts them in full where the plate cannot hold so many.
use outside::answers::{FULL_DEMAND, TURNING};
use outside::blocks::{job_s, kerf_block, plan_block, sizes_block, Kind};
use outside::random::Random;
use outside::reference;
use planner::{Choices, Job as Typed, Plan, Planner};

/// What the calls read.
#[derive(Clone, Default)]
pub struct Job {
    pub name: String,
    pub block: Vec<u8>,
    pub choices: u32,
    pub weights: Vec<u8>,
    /// For the call with two weights a kind.
    pub second: Vec<u8>,
    /// For the staged calls.
    pub limit: u32,
    /// For the calls that read a plan, as arrays and as a block.
    pub kinds: Vec<u8>,
    pub operands: Vec<u16>,
    pub plan: Vec<u8>,
    /// For the calls at true sizes.
    pub sizes: Vec<u8>,
    /// For the Lagrangian bound.
    pub multipliers: Vec<u32>,
    /// For the rack: the lengths and the widths of its plates.
    pub plates: [Vec<u16>; 2],
}

/// What a generated job is drawn from.
#[derive(Clone, Copy)]
struct Draw {
    plate: u16,
    kerf: u16,
    kinds: usize,
    sides: (usize, usize),
    weights: &'static [u8],
    capacity: usize,
    second_weights: &'static [u8],
    second_capacity: usize,
    /// Each price is about a hundred times the kind's weights, so that most shares have a figure of their own.
    in_step: bool,
    choices: u32,
}

const SMALL: Draw = Draw {
    plate: 100,
    kerf: 0,
    kinds: 20,
    sides: (8, 60),
    weights: &[0],
    capacity: 0,
    second_weights: &[0],
    second_capacity: 0,
    in_step: false,
    choices: 0,
};

/// The fixed set.
pub fn named() -> Vec<Job> {
    let few = Draw { weights: &[0, 1], capacity: 30, ..SMALL };
    let turning = Draw { choices: TURNING, ..few };
    let kerf = Draw { kerf: 4, ..few };
    let half = Draw { plate: 500, kinds: 40, sides: (30, 250), ..SMALL };
    let full = Draw { plate: 1000, kinds: 50, sides: (100, 500), ..SMALL };
    let shares = Draw {
        plate: 300,
        kinds: 15,
        sides: (45, 150),
        weights: &[0, 1, 2, 3, 5, 8],
        capacity: 200,
        ..SMALL
    };
    let many = Draw { sides: (20, 50), weights: &[0, 16, 48], capacity: 4000, choices: FULL_DEMAND, ..SMALL };
    let mut jobs = vec![s()];
    jobs.extend([SMALL, few, turning, kerf, half, full, shares, many].iter().map(draw));
    jobs
}

/// Job S of the scope.
fn s() -> Job {
    Job { name: "S".into(), block: job_s(), weights: vec![0, 1, 0], ..Job::default() }
}

/// A plate of 30 kinds that are small against it.
fn growing(plate: u16) -> Job {
    draw(&Draw { plate, kinds: 30, sides: (20, 60), ..SMALL })
}

/// Weights 0 on larger and larger plates.
pub fn growing_plates() -> Vec<Job> {
    [125, 250, 500, 1000].map(growing).into()
}

/// One plate with a larger and larger capacity.
pub fn growing_capacities() -> Vec<Job> {
    let weights = &[1, 2, 3, 5, 8, 13];
    let capacities = [60, 250, 1000, 4000];
    let choices = FULL_DEMAND;
    let plate = Draw { plate: 80, kinds: 16, sides: (12, 40), weights, choices, ..SMALL };
    capacities.map(|capacity| draw(&Draw { capacity, ..plate })).into()
}

/// Staged bounds: without weights, with few shares, and with many within more and more stages.
pub fn staged() -> Vec<Job> {
    let half = Draw { plate: 500, kinds: 40, sides: (30, 250), ..SMALL };
    let quarter = Draw { plate: 250, kinds: 30, sides: (20, 60), ..SMALL };
    let few = Draw { weights: &[0, 1], capacity: 18, ..SMALL };
    let weights = &[1, 2, 3, 5, 8];
    let many = Draw { plate: 80, kinds: 16, sides: (12, 40), weights, capacity: 136, ..SMALL };
    let small = Draw { plate: 60, kinds: 10, sides: (3, 20), weights, capacity: 141, ..SMALL };
    let one = [(SMALL, 8), (half, 4), (quarter, 8), (few, 2)];
    let growing = [many, small].into_iter().flat_map(|from| [2, 4, 8].map(|limit| (from, limit)));
    one.into_iter().chain(growing).map(|(from, limit)| within(draw(&from), limit)).collect()
}

fn within(job: Job, limit: u32) -> Job {
    Job { name: format!("{}, limit {limit}", job.name), limit, ..job }
}

/// Two weights a kind, with more and more pairs of shares.
pub fn two_weights() -> Vec<Job> {
    let few = &[0, 1, 2];
    let many = &[1, 2, 3, 5, 8];
    let small = Draw { plate: 60, kinds: 10, sides: (8, 30), weights: few, ..SMALL };
    let medium = Draw { plate: 80, kinds: 16, sides: (12, 40), weights: few, ..SMALL };
    let large = Draw { sides: (15, 50), weights: &[8, 16, 48], ..SMALL };
    let draws = [
        Draw { capacity: 8, second_weights: few, second_capacity: 10, ..small },
        Draw { capacity: 34, second_weights: few, second_capacity: 39, ..medium },
        Draw { capacity: 72, second_weights: many, second_capacity: 171, ..medium },
        Draw { capacity: 931, second_weights: few, second_capacity: 25, ..large },
    ];
    draws.iter().map(draw).collect()
}

/// Short orders: ChW1, whose optimum is 244, and generated ones with these demands, on plates that hold
/// few of the pieces and, in the last two, most of them.
pub fn exact() -> Vec<Job> {
    let chw1 = [
        (8, 4, 66, 2),
        (3, 7, 35, 1),
        (8, 2, 24, 3),
        (3, 4, 17, 5),
        (3, 3, 11, 2),
        (3, 2, 8, 2),
        (2, 1, 2, 1),
    ];
    let drawn: [(u16, (usize, usize), &[u16]); 6] = [
        (60, (10, 30), &[2; 6]),
        (60, (10, 30), &[1; 12]),
        (100, (20, 50), &[1; 12]),
        (100, (15, 50), &[3; 6]),
        (100, (12, 40), &[1, 2, 3, 4, 5, 2]),
        (100, (10, 35), &[1; 12]),
    ];
    let first = Job { name: "ChW1".into(), block: kerf_block(15, 10, 0, &chw1), ..Job::default() };
    let others = drawn.map(|(plate, sides, demands)| short_order(plate, sides, demands));
    [first].into_iter().chain(others).collect()
}

/// One kind for each demand.
fn short_order(plate: u16, sides: (usize, usize), demands: &[u16]) -> Job {
    let random = &mut Random::new(u64::from(plate) + demands.len() as u64);
    let draw = |&demand: &u16| {
        let (length, width, price, _) = draw_kind(random, sides);
        (length, width, price, demand)
    };
    let kinds: Vec<Kind> = demands.iter().map(draw).collect();
    let (low, high) = sides;
    let copies = demands.iter().map(u16::to_string).collect::<Vec<String>>().join(" ");
    let name = format!("{plate}×{plate}, demands {copies}, sides {low}–{high}");
    Job { name, block: kerf_block(plate, plate, 0, &kinds), ..Job::default() }
}

/// Weights found in rounds: for short orders, and for one of each of many kinds.
pub fn rounds() -> Vec<Job> {
    exact().into_iter().take(3).chain([draw(&SMALL)]).collect()
}

/// Plans to check, longer and longer ones, within eight stages.
pub fn plans() -> Vec<Job> {
    let drawn = [s(), draw(&SMALL), growing(500)].map(|job| planned(job, 1));
    drawn.into_iter().chain([strips()]).collect()
}

/// Plans and the jobs' own sizes in tenths, without a kerf.
pub fn true_sizes() -> Vec<Job> {
    let tenths = |side: u16| 10 * u32::from(side);
    let sized = |job: Job| {
        let typed = Typed::from_block(&job.block, Choices::default()).expect("an accepted job");
        let kinds = typed.kinds.iter().map(|kind| [kind.length, kind.width].map(tenths));
        let kinds: Vec<[u32; 2]> = kinds.collect();
        let sizes = sizes_block(tenths(typed.length), tenths(typed.width), 0, &kinds);
        Job { sizes, ..job }
    };
    plans().into_iter().map(sized).collect()
}

/// Orders without weights and with some; each multiplier is a seventh of the price.
pub fn orders() -> Vec<Job> {
    let half = Draw { plate: 500, kinds: 40, sides: (30, 250), ..SMALL };
    let weighed = Draw { weights: &[0, 1], capacity: 30, ..SMALL };
    let lowered = |job: Job| {
        let typed = Typed::from_block(&job.block, Choices::default()).expect("an accepted job");
        let multipliers = typed.kinds.iter().map(|kind| kind.price / 7).collect();
        Job { multipliers, ..job }
    };
    [SMALL, weighed, half].iter().map(draw).map(lowered).collect()
}

/// The largest plate with the most kinds, all small against it; within eight stages too.
pub fn worst_plates() -> [Job; 2] {
    let full = draw(&Draw { plate: 1000, kinds: 64, sides: (10, 60), ..SMALL });
    [full.clone(), within(full, 8)]
}

/// Many small kinds whose prices go with their weights: one weight a kind, and two.
pub fn worst_shares() -> [Job; 2] {
    let weights = &[1, 2, 3, 4, 5, 6, 7, 8, 9, 10, 11, 12, 13];
    let few = &[1, 2];
    let dense = Draw { kinds: 40, sides: (2, 12), in_step: true, ..SMALL };
    let one = Draw { plate: 60, weights, capacity: 570, ..dense };
    let two = Draw { plate: 24, kinds: 20, weights: few, capacity: 30, ..dense };
    [one, Draw { second_weights: few, second_capacity: 30, ..two }].map(|from| draw(&from))
}

/// Twelve kinds of one copy each.
pub fn worst_exact() -> Job {
    short_order(200, (10, 60), &[1; 12])
}

/// A plate that is cut into 1,000 strips, 250 of each kind.
fn strips() -> Job {
    let block = kerf_block(1000, 1000, 0, &[(1, 1000, 1, 250); 4]);
    let cuts = (0..999).flat_map(|i| [(2, 1), (1, i / 250)]);
    let (kinds, operands): (Vec<u8>, Vec<u16>) = cuts.chain([(1, 3)]).unzip();
    let plan = plan_block(&kinds, &operands);
    Job { name: "1000×1000, 1000 strips".into(), block, kinds, operands, plan, limit: 8, ..Job::default() }
}

/// A plan on each of sixteen plates.
pub fn racks() -> Vec<Job> {
    let Job { name, block, choices, kinds, operands, .. } = planned(draw(&SMALL), RACK);
    let name = format!("{RACK} plates, each {name}");
    let (kinds, operands) = (kinds.repeat(RACK), operands.repeat(RACK));
    let plates = [0, 2].map(|at| vec![u16::from_le_bytes([block[at], block[at + 1]]); RACK]);
    vec![Job { name, block, choices, kinds, operands, plates, ..Job::default() }]
}

const RACK: usize = 16;

/// Plans to certify: with weights that are all 0 and with others, within eight stages.
pub fn certificates() -> Vec<Job> {
    let half = Draw { plate: 500, kinds: 40, sides: (30, 250), ..SMALL };
    let weighed = Draw { weights: &[0, 1], capacity: 30, ..SMALL };
    let (kinds, operands, limit) = (vec![0], vec![0], 8);
    vec![planned(draw(&half), 1), Job { kinds, operands, limit, ..draw(&weighed) }]
}

/// The job with the plan behind its bound, and with demands for so many of it.
fn planned(job: Job, times: usize) -> Job {
    let choices = Choices::from_word(job.choices);
    let mut planner = Planner::of_block(job.block.clone(), job.choices, u64::MAX);
    let (_, Plan { kinds, operands }) = planner.write_plan(&job.weights).expect("an accepted job");
    let mut typed = Typed::from_block(&job.block, choices).expect("an accepted job");
    typed.kinds.iter_mut().enumerate().for_each(|(i, kind)| {
        let is_copy = |(node, number): (&u8, &u16)| matches!(node, 1 | 4) && usize::from(*number) == i;
        let copies = kinds.iter().zip(&operands).filter(|node| is_copy(*node)).count();
        kind.demand = (times * copies.max(1)) as u16;
    });
    let (block, plan) = (typed.block(choices), plan_block(&kinds, &operands));
    Job { block, kinds, operands, plan, limit: 8, ..job }
}

fn draw(from: &Draw) -> Job {
    let random = &mut Random::new(u64::from(from.plate) + from.kinds as u64);
    let mut kinds: Vec<Kind> = (0..from.kinds).map(|_| draw_kind(random, from.sides)).collect();
    let mut pick = |weights| (0..from.kinds).map(|_| random.pick(weights)).collect::<Vec<u8>>();
    let (weights, second) = (pick(from.weights), pick(from.second_weights));
    raise_demands(from, &mut kinds, &weights, &second);
    if from.in_step {
        price_by_weight(random, &mut kinds, &weights, &second);
    }
    let [capacity, other] = [&weights, &second].map(|weights| capacity(from, &kinds, weights));
    let &Draw { plate, kerf, sides: (low, high), choices, .. } = from;
    let n = kinds.len();
    let mut name = format!("{plate}×{plate}, {n} kinds of sides {low}–{high}, Q {capacity}");
    if from.second_capacity > 0 {
        name += &format!(" and {other}");
    }
    if kerf > 0 {
        name += &format!(", kerf {kerf}");
    }
    if from.in_step {
        name += ", prices in step";
    }
    for (choice, words) in [(TURNING, ", turning"), (FULL_DEMAND, ", full demand")] {
        name += if choices & choice != 0 { words } else { "" };
    }
    let block = kerf_block(plate, plate, kerf, &kinds);
    Job { name, block, choices, weights, second, ..Job::default() }
}

fn draw_kind(random: &mut Random, (low, high): (usize, usize)) -> Kind {
    let (length, width) = (random.from(low, high), random.from(low, high));
    let area = length * width;
    (length as u16, width as u16, (area + random.from(0, area / 4)) as u32, 1)
}

fn price_by_weight(random: &mut Random, kinds: &mut [Kind], weights: &[u8], second: &[u8]) {
    for (kind, (first, second)) in kinds.iter_mut().zip(weights.iter().zip(second)) {
        kind.2 = 100 * (u32::from(*first) + u32::from(*second)) + random.from(0, 99) as u32;
    }
}

/// Adds copies of kinds that weigh, one kind after the other, as long as both capacities stay within
/// their limits.
fn raise_demands(from: &Draw, kinds: &mut [Kind], weights: &[u8], second: &[u8]) {
    for _ in 1..255 {
        for i in (0..kinds.len()).filter(|&i| weights[i] > 0 || second[i] > 0) {
            kinds[i].3 += 1;
            if capacity(from, kinds, weights) > from.capacity
                || capacity(from, kinds, second) > from.second_capacity
            {
                kinds[i].3 -= 1;
            }
        }
    }
}

/// The capacity that the calls read, or more than any limit where they refuse it.
fn capacity(from: &Draw, kinds: &[Kind], weights: &[u8]) -> usize {
    let block = kerf_block(from.plate, from.plate, from.kerf, kinds);
    let job = reference::Job::read(&block, from.choices).expect("a job");
    reference::capacity(&job, weights).unwrap_or(usize::MAX)
}
