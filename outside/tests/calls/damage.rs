// Damage to inputs: bytes cut off, added and changed, fields set to the edges of their ranges.
// A damaged input may still be accepted; the reference says what must come of it.
use crate::run::Input;
use outside::answers::{GRAIN, OLD_BLOCK};
use outside::blocks::plan_block;
use outside::random::Random;

const EDGES: [u16; 11] = [0, 1, 20, 21, 64, 65, 255, 256, 1000, 1001, 65535];
const PRICE_EDGES: [u32; 4] = [1_000_000, 1_000_001, 0x0100_0000, u32::MAX];

/// Damages at most one of the parts that the calls read.
pub fn damage(random: &mut Random, input: &mut Input) {
    match random.from(0, 9) {
        0 | 1 => damage_job(random, input),
        2 => damage_weights(random, input),
        3 | 4 => {
            damage_arrays(random, input);
            if input.kinds.len() == input.operands.len() {
                input.plan = plan_block(&input.kinds, &input.operands);
            }
        }
        5 if random.one_in(8) => input.plan = vec![0, 0],
        5 => damage_bytes(random, &mut input.plan),
        6 if random.one_in(4) => input.choices ^= 1 << random.from(0, 31),
        6 if random.one_in(6) => input.choices ^= OLD_BLOCK,
        _ => {}
    }
}

/// Bytes before the sizes.
fn header(input: &Input) -> usize {
    if input.choices & OLD_BLOCK == 0 {
        8
    } else {
        6
    }
}

fn damage_job(random: &mut Random, input: &mut Input) {
    let (header, n) = (header(input), input.weights.len());
    let job = &mut input.job;
    match random.from(0, 4) {
        0 => damage_bytes(random, job),
        1 => set_field(random, job, 0, header / 2),
        2 => set_field(random, job, header, 2 * n),
        3 if input.choices & GRAIN != 0 => {
            job[header + 10 * n + random.from(0, n - 1)] = random.pick(&[2, 255]);
        }
        _ => damage_pair(random, &mut job[header + 4 * n..][..6 * n]),
    }
}

fn damage_pair(random: &mut Random, pairs: &mut [u8]) {
    let at = 6 * random.from(0, pairs.len() / 6 - 1);
    let pair = &mut pairs[at..];
    if random.one_in(2) {
        pair[..4].copy_from_slice(&random.pick(&PRICE_EDGES).to_le_bytes());
    }
    if random.one_in(2) {
        pair[4..6].copy_from_slice(&random.pick(&EDGES).to_le_bytes());
    }
}

/// Sets one of `count` fields of two bytes, from `start`, to an edge.
fn set_field(random: &mut Random, bytes: &mut [u8], start: usize, count: usize) {
    let at = start + 2 * random.from(0, count - 1);
    bytes[at..at + 2].copy_from_slice(&random.pick(&EDGES).to_le_bytes());
}

fn damage_bytes(random: &mut Random, bytes: &mut Vec<u8>) {
    let length = bytes.len();
    match random.from(0, 4) {
        0 => bytes.truncate(random.from(0, length / 2)),
        1 => bytes.truncate(length.saturating_sub(1)),
        2 => bytes.extend((0..random.from(1, 12)).map(|_| random.word() as u8)),
        _ => {
            for _ in 0..random.from(1, 3) {
                bytes[random.from(0, length - 1)] = random.word() as u8;
            }
        }
    }
}

fn damage_weights(random: &mut Random, input: &mut Input) {
    let weights = &mut input.weights;
    match random.from(0, 3) {
        0 => weights.truncate(weights.len() - 1),
        1 => weights.push(0),
        2 => overload(random, input),
        _ => weights[0] = random.word() as u8,
    }
}

/// The greatest weights, and a last kind of 1 by 1, of which about as many are ordered as the
/// capacity takes, or more.
fn overload(random: &mut Random, input: &mut Input) {
    let (n, header) = (input.weights.len(), header(input));
    let (sizes, pairs) = input.job[header..].split_at_mut(4 * n);
    sizes[4 * n - 4..].copy_from_slice(&[1, 0, 1, 0]);
    pairs[6 * n - 2] = random.pick(&[16, 17, 255]);
    input.weights.fill(255);
}

/// Now and then the second weights are too few, too many or too heavy.
pub fn damage_second(random: &mut Random, input: &mut Input) {
    match random.from(0, 31) {
        0 => input.second.truncate(random.from(0, input.weights.len())),
        1 => input.second.push(0),
        2 => input.second.fill(255),
        3 => overload_pairs(input),
        _ => {}
    }
}

/// A last kind of 1 by 1 that fills the second capacity, and with a weight of 1 enough of the first for
/// too many pairs of shares, where the plate holds 16 of it. An odd block is left as it is.
fn overload_pairs(input: &mut Input) {
    let (n, header) = (input.second.len(), header(input));
    let bytes = header + if input.choices & GRAIN == 0 { 10 } else { 11 } * n;
    if input.job.len() == bytes && input.weights.len() == n {
        let (sizes, pairs) = input.job[header..].split_at_mut(4 * n);
        sizes[4 * n - 4..].copy_from_slice(&[1, 0, 1, 0]);
        pairs[6 * n - 2..][..2].copy_from_slice(&[16, 0]);
        input.weights[n - 1] = 1;
        input.second.fill(0);
        input.second[n - 1] = 255;
    }
}

const SIZE_EDGES: [u32; 7] = [0, 1, 1_000_000, 1_000_001, 100_000_000, 100_000_001, u32::MAX];

/// Now and then the sizes block is cut off, longer or odd, or a size is at an edge.
pub fn damage_sizes(random: &mut Random, input: &mut Input) {
    match random.from(0, 31) {
        0 | 1 => damage_bytes(random, &mut input.sizes),
        2..=4 => {
            let at = 4 * random.from(0, input.sizes.len() / 4 - 1);
            input.sizes[at..at + 4].copy_from_slice(&random.pick(&SIZE_EDGES).to_le_bytes());
        }
        _ => {}
    }
}

/// Now and then there are too few or too many multipliers, or one is too great.
pub fn damage_multipliers(random: &mut Random, input: &mut Input) {
    let multipliers = &mut input.multipliers;
    let last = multipliers.len() - 1;
    match random.from(0, 31) {
        0 => multipliers.truncate(last),
        1 => multipliers.push(0),
        2 | 3 => multipliers[random.from(0, last)] = random.pick(&[1_000_001, 1 << 24, u32::MAX]),
        4 => multipliers.fill(1_000_000),
        _ => {}
    }
}

fn damage_arrays(random: &mut Random, input: &mut Input) {
    let Input { kinds, operands, .. } = input;
    let last = kinds.len() - 1;
    let at = random.from(0, last);
    match random.from(0, 7) {
        0 => kinds.truncate(at),
        1 => operands.truncate(at),
        2 => {
            kinds.truncate(last);
            operands.truncate(last);
        }
        3 => {
            kinds.push(0);
            operands.push(0);
        }
        4 => kinds[at] = random.from(0, 6) as u8,
        5 => operands[at] = random.pick(&EDGES),
        6 => operands[at] ^= 1,
        _ => kinds[at] ^= 1,
    }
}
