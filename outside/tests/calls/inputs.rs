// Generated jobs, weights and plans. Most are accepted; damage is done elsewhere.
// Sides are small against the plate, prices few, so that ties and full plates are common.
use crate::examples::{input, Node};
use crate::run::Input;
use outside::answers::{GRAIN, OLD_BLOCK, TURNING};
use outside::blocks::{kerf_block, old_block, sizes_block, Kind};
use outside::random::Random;
use outside::reference::{Copies, Job};

/// The greatest values that are drawn.
#[derive(Clone, Copy)]
pub struct Scale {
    pub plate: usize,
    /// For most inputs; one in eight has any kerf that is accepted.
    pub kerf: usize,
    pub side: usize,
    pub kinds: usize,
    pub price: usize,
    pub demand: usize,
    pub weight: usize,
    /// Sums that the reference may form for one input.
    pub work: usize,
}

/// Small jobs, whatever they cost the reference.
pub const SMALL: Scale =
    Scale { plate: 7, kerf: 2, side: 5, kinds: 4, price: 9, demand: 3, weight: 2, work: usize::MAX };

/// A rectangle and the kerf of the blade that cuts it.
#[derive(Clone, Copy)]
pub struct Rectangle {
    pub length: usize,
    pub width: usize,
    pub kerf: usize,
}

/// An input in the block that the choices name.
pub fn draw(random: &mut Random, scale: Scale, choices: u32) -> Input {
    let (length, width) = (random.from(1, scale.plate), random.from(1, scale.plate));
    let old = choices & OLD_BLOCK != 0;
    let plate = Rectangle { length, width, kerf: if old { 0 } else { draw_kerf(random, scale) } };
    let n = random.from(1, scale.kinds);
    let kinds: Vec<Kind> = (0..n).map(|_| draw_kind(random, scale)).collect();
    let heaviest = if random.one_in(4) { 0 } else { scale.weight };
    let weights: Vec<u8> = (0..n).map(|_| random.from(0, heaviest) as u8).collect();
    let mut left = kinds.iter().map(|kind| kind.3).collect::<Vec<u16>>();
    let grains = if choices & GRAIN != 0 { draw_grains(random, n) } else { vec![] };
    let nodes = draw_plan(random, plate, &kinds, (choices, &grains), &mut left);
    let [length, width, kerf] = [length, width, plate.kerf].map(|field| field as u16);
    let mut block =
        if old { old_block(length, width, &kinds) } else { kerf_block(length, width, kerf, &kinds) };
    block.extend(grains);
    let seed = block.iter().fold(1, |seed: u64, &byte| seed.wrapping_mul(31).wrapping_add(byte.into()));
    let own = &mut Random::new(seed);
    input(block, &weights, &nodes)
        .with(choices)
        .at(draw_true_sizes(own, plate, &kinds))
        .lowered(&draw_multipliers(own, &kinds))
        .beside(own.pick(&[0, 0, 1, 5, 20, u64::MAX]))
}

/// Kinds that keep their grain and kinds that do not.
fn draw_grains(random: &mut Random, n: usize) -> Vec<u8> {
    (0..n).map(|_| random.from(0, 1) as u8).collect()
}

/// True sizes for which a job mostly stands: some number of true units to each of its own, and some more.
/// One draw in three has pieces that may take less than that, so that more of them may fit.
fn draw_true_sizes(random: &mut Random, plate: Rectangle, kinds: &[Kind]) -> Vec<u8> {
    let units = random.from(1, 4);
    let more = random.from(0, units - 1);
    let less = if random.one_in(3) { units } else { 0 };
    let kerf = units * plate.kerf + random.from(0, more);
    let mut side = |side: usize, less: usize| {
        let taken = units * (side + plate.kerf) + random.from(0, more);
        taken.saturating_sub(kerf + random.from(0, less)).max(1) as u32
    };
    let [length, width] = [plate.length, plate.width].map(|own| side(own, 0));
    let kinds = kinds.iter().map(|kind| [kind.0, kind.1].map(|own| side(own.into(), less)));
    let kinds: Vec<[u32; 2]> = kinds.collect();
    sizes_block(length, width, kerf as u32, &kinds)
}

/// Multipliers of 0, up to about the prices, or whatever is accepted.
fn draw_multipliers(random: &mut Random, kinds: &[Kind]) -> Vec<u32> {
    let most = random.pick(&[0, 0, 1, 2]);
    let draw = |kind: &Kind| match random.from(0, 15) {
        0 => random.from(0, 1_000_000) as u32,
        _ => (random.from(0, kind.2 as usize) * most) as u32,
    };
    let multipliers = kinds.iter().map(draw);
    multipliers.map(|multiplier| multiplier.min(1_000_000)).collect()
}

fn draw_kerf(random: &mut Random, scale: Scale) -> usize {
    match random.from(0, 7) {
        0..=2 => 0,
        3 => random.from(0, 20),
        _ => random.from(0, scale.kerf),
    }
}

fn draw_kind(random: &mut Random, scale: Scale) -> Kind {
    let price = if random.one_in(6) { 0 } else { random.from(1, scale.price) };
    (
        random.from(1, scale.side) as u16,
        random.from(1, scale.side) as u16,
        price as u32,
        random.from(0, scale.demand) as u16,
    )
}

/// The same job with other demands: mostly as few as the exact answer takes, and no more than the
/// reference can answer in so many sums; now and then too many. A job that is refused stays as it is.
pub fn short_order(random: &mut Random, input: &Input, work: usize) -> Input {
    let Ok(mut job) = Job::read(&input.job, input.choices) else { return input.clone() };
    let long = random.one_in(8);
    if long {
        let demand = random.pick(&[1, 15, 63, 255]);
        job.kinds.iter_mut().for_each(|kind| kind.demand = demand);
    }
    let cuts = job.length * job.width * (job.length + job.width) / 2;
    while !Copies::of(&job).map_or(long, |copies| cuts * copies.ways() <= work) {
        let most = job.kinds.iter_mut().max_by_key(|kind| kind.demand).expect("a kind");
        if most.demand == 0 {
            break;
        }
        most.demand /= 2;
    }
    let mut order = input.clone();
    let header = if input.choices & OLD_BLOCK == 0 { 8 } else { 6 };
    let pairs = header + 4 * job.kinds.len();
    for (pair, kind) in order.job[pairs..].chunks_mut(6).zip(&job.kinds) {
        pair[4..].copy_from_slice(&(kind.demand as u16).to_le_bytes());
    }
    order
}

/// A plan by random cuts with copies of which so many are left, under choices and grain bytes. Now and then a
/// node breaks a rule; one plan in four keeps its idle cuts.
pub fn draw_plan(
    random: &mut Random,
    plate: Rectangle,
    kinds: &[Kind],
    turning: (u32, &[u8]),
    left: &mut [u16],
) -> Vec<Node> {
    let mut waiting = vec![plate];
    let mut nodes = Vec::new();
    while let Some(rectangle) = waiting.pop() {
        let node = if random.one_in(40) {
            (random.from(0, 5) as u8, random.from(0, plate.length + 1) as u16)
        } else {
            draw_node(random, rectangle, kinds, turning, left)
        };
        nodes.push(node);
        waiting.extend(parts(node, rectangle));
    }
    if random.one_in(4) {
        nodes
    } else {
        without_idle_cuts(&nodes).unwrap_or(nodes)
    }
}

/// The plan with waste in place of each part that holds no piece; none where it is no whole tree.
fn without_idle_cuts(nodes: &[Node]) -> Option<Vec<Node>> {
    let mut trees: Vec<Vec<Node>> = Vec::new();
    for node in nodes.iter().rev() {
        let mut tree = vec![*node];
        if matches!(node.0, 2 | 3) {
            tree.extend(trees.pop()?);
            tree.extend(trees.pop()?);
        }
        let pieceless = !tree.iter().any(|node| matches!(node.0, 1 | 4));
        trees.push(if pieceless && tree.len() > 1 { vec![(0, 0)] } else { tree });
    }
    let whole = trees.pop();
    if trees.is_empty() {
        whole
    } else {
        None
    }
}

fn draw_node(
    random: &mut Random,
    Rectangle { length, width, kerf }: Rectangle,
    kinds: &[Kind],
    (choices, grains): (u32, &[u8]),
    left: &mut [u16],
) -> Node {
    let i = random.from(0, kinds.len() - 1);
    let (l, w, _, _) = kinds[i];
    let turned = choices & TURNING != 0 && random.one_in(2) && grains.get(i) != Some(&1);
    let (node, l, w) = if turned { (4, w, l) } else { (1, l, w) };
    match random.from(0, 5) {
        0..=2 if left[i] > 0 && usize::from(l) <= length && usize::from(w) <= width => {
            left[i] -= 1;
            (node, i as u16)
        }
        0 | 1 | 3 if length > kerf + 1 => (2, random.from(1, length - kerf - 1) as u16),
        2 | 4 if width > kerf + 1 => (3, random.from(1, width - kerf - 1) as u16),
        _ => (0, 0),
    }
}

/// The rectangles that a node leaves waiting, the first part last; none where the cut is not one.
fn parts((kind, operand): Node, whole: Rectangle) -> Vec<Rectangle> {
    let cut = usize::from(operand);
    let taken = cut + whole.kerf;
    let length = |length| Rectangle { length, ..whole };
    let width = |width| Rectangle { width, ..whole };
    match kind {
        2 if cut > 0 && taken < whole.length => vec![length(whole.length - taken), length(cut)],
        3 if cut > 0 && taken < whole.width => vec![width(whole.width - taken), width(cut)],
        _ => vec![],
    }
}
