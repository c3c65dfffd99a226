// Noise: every call on bytes that no job or plan was made of, wholly random, random behind a header that
// passes, and random weights and plans beside a job that passes. The reference says what must come of it.
use crate::inputs::{draw, SMALL};
use crate::lent::Sizes;
use crate::rack::Order;
use crate::run::{compare, Input, ALL_CALLS};
use crate::saw::Saw;
use outside::answers::{CHOICES, GRAIN, OLD_BLOCK, STAGED_REPORT_WORDS};
use outside::random::Random;
use std::collections::BTreeMap;

const INPUTS: usize = 6000;

/// How much of an input is random.
#[derive(Clone, Copy)]
enum Noise {
    All,
    BehindTheHeader,
    BesideTheJob,
}

fn bytes(random: &mut Random, most: usize) -> Vec<u8> {
    (0..random.from(0, most)).map(|_| random.word() as u8).collect()
}

fn words(random: &mut Random, most: usize) -> Vec<u16> {
    (0..random.from(0, most)).map(|_| random.word() as u16).collect()
}

/// Sizes that pass, and as many random bytes as they ask for.
fn behind_a_header(random: &mut Random, choices: u32) -> Vec<u8> {
    let n = random.from(1, 64);
    let sides = [random.from(1, 1000), random.from(1, 1000), n, random.from(0, 20)];
    let fields = if choices & OLD_BLOCK == 0 { &sides[..] } else { &sides[..3] };
    let mut job: Vec<u8> = fields.iter().flat_map(|&field| (field as u16).to_le_bytes()).collect();
    let each = if choices & GRAIN == 0 { 10 } else { 11 };
    job.extend((0..each * n).map(|_| random.word() as u8));
    job
}

/// Weights and arrays of the lengths that are asked for, or of any.
fn noise(random: &mut Random, how: Noise) -> Input {
    let known = random.from(0, CHOICES as usize) as u32;
    let choices = if random.one_in(16) { random.word() as u32 } else { known };
    let passing = draw(random, SMALL, known);
    let job = match how {
        Noise::All => bytes(random, 720),
        Noise::BehindTheHeader => behind_a_header(random, choices),
        Noise::BesideTheJob => passing.job,
    };
    let (n, nodes) = (passing.weights.len(), random.from(0, 40));
    let any = random.one_in(3);
    let exactly = |random: &mut Random| (0..n).map(|_| random.word() as u8).collect();
    let mut weights = || if any { bytes(random, 70) } else { exactly(random) };
    let (first, second) = (weights(), weights());
    let kind = |word: u64| if word.is_multiple_of(8) { (word >> 8) as u8 } else { (word >> 8) as u8 % 5 };
    let mut kinds: Vec<u8> = (0..nodes).map(|_| kind(random.word())).collect();
    let mut operands: Vec<u16> = (0..nodes).map(|_| random.word() as u16 % 8).collect();
    if any {
        (kinds, operands) = (bytes(random, 60), words(random, 60));
    }
    let (limit, plan) = (random.word() as u32, bytes(random, 60));
    let limit = if any { limit } else { limit % 10 };
    let other = random.word();
    let sizes = if any { bytes(random, 90) } else { passing.sizes };
    let multipliers = match random.from(0, 3) {
        0 => vec![random.word() as u32; n],
        1 => vec![0; random.from(0, 5)],
        _ => passing.multipliers,
    };
    let weights = first;
    let plans = Input { limit, kinds, operands, plan, ..Input::default() };
    Input { job, choices, weights, second, sizes, multipliers, other, ..plans }
}

/// Small memory: the reference answers 20 at once where the capacity is large.
fn few_words(random: &mut Random) -> Sizes {
    let mut up_to = |most| random.from(0, most);
    Sizes {
        lengths: up_to(40),
        widths: up_to(40),
        table: up_to(80),
        kinds: up_to(9),
        operands: up_to(9),
        answer: STAGED_REPORT_WORDS - up_to(1) * up_to(70),
    }
}

/// The plates of a rack of any size and sides.
fn rack(random: &mut Random, input: &Input) -> Order {
    let plates = random.from(0, 18);
    let mut side = || if random.one_in(8) { random.word() as u16 } else { random.from(1, 9) as u16 };
    let mut sides = || (0..plates).map(|_| side()).collect();
    let (lengths, widths) = (sides(), sides());
    let profits = if random.one_in(8) { random.from(0, 18) } else { plates };
    Order { input: input.clone(), lengths, widths, profits }
}

/// Compares all twenty calls on one input, and counts the codes.
fn all_agree(random: &mut Random, input: &Input, met: &mut BTreeMap<u32, usize>) {
    for call in ALL_CALLS {
        let sizes = few_words(random);
        *met.entry(compare(call, input, sizes).0).or_default() += 1;
    }
    let node = if random.one_in(2) { random.word() } else { random.from(0, 9) as u64 };
    for call in [Saw::Check, Saw::Kinds(node), Saw::Operands(node)] {
        *met.entry(call.agrees(input, random.from(0, 70)).0).or_default() += 1;
    }
    *met.entry(rack(random, input).agrees(random.from(0, 2)).0).or_default() += 1;
}

fn agree(seed: u64, how: Noise) -> BTreeMap<u32, usize> {
    let (random, mut met) = (&mut Random::new(seed), BTreeMap::new());
    for _ in 0..INPUTS {
        let input = noise(random, how);
        all_agree(random, &input, &mut met);
    }
    let calls: usize = met.values().sum();
    println!("of noise: {INPUTS} inputs, {calls} calls compared, {met:?}");
    met
}

#[test]
fn random_bytes_agree() {
    let met = agree(131, Noise::All);
    assert!([1, 2, 28, 100, 101].iter().all(|code| met[code] >= 100), "{met:?}");
}

#[test]
fn random_arrays_behind_a_header_agree() {
    let met = agree(132, Noise::BehindTheHeader);
    assert!([5, 28, 100, 101].iter().all(|code| met[code] >= 100), "{met:?}");
}

#[test]
fn random_weights_and_plans_agree() {
    let met = agree(133, Noise::BesideTheJob);
    let orders = [31, 32, 33, 36, 37, 38];
    let expected = [0, 8, 10, 11, 12, 13, 14, 15, 16, 17, 18, 19, 20, 21, 22, 24, 25, 28, 100, 101];
    let expected = [&expected[..], &orders].concat();
    assert!(expected.iter().all(|code| met.get(code).is_some_and(|&times| times >= 10)), "{met:?}");
}
