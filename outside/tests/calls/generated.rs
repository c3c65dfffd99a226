// Every call on many thousands of generated inputs, valid and damaged, with storage that is ample,
// exact or short: code, answer and all lent memory must be the reference's.
use crate::damage::{damage, damage_multipliers, damage_second, damage_sizes};
use crate::inputs::{draw, short_order, Scale, SMALL};
use crate::lent::{Lent, Sizes};
use crate::run::{compare, Call, Input, ALL_CALLS, ALL_CHOICES, STAGED_CALLS};
use outside::answers::{GRAIN, OLD_BLOCK, STAGED_REPORT_WORDS, TURNING};
use outside::random::Random;
use outside::reference::{capacities, capacity, normal_positions, true_job, Copies, Job, Kind};
use std::collections::BTreeMap;

/// How often each call gave each code, and how many certificates of a plan that earns something were
/// "best" and "gap". Only what was compared is counted.
#[derive(Default)]
struct Tally {
    codes: BTreeMap<(Call, u32), usize>,
    best: usize,
    gaps: usize,
}

impl Tally {
    /// Compares one call on both implementations, and counts it.
    fn compare(&mut self, call: Call, input: &Input, sizes: Sizes) -> (u32, Lent) {
        let (code, lent) = compare(call, input, sizes);
        assert!(codes(call).contains(&code), "{call:?} gave {code}");
        self.count(call, code, &lent);
        (code, lent)
    }

    /// All comparisons, and those of calls that were done and not refused.
    fn compared(&self) -> (usize, usize) {
        let done = self.codes.iter().filter(|((_, code), _)| *code == 0);
        (self.codes.values().sum(), done.map(|(_, count)| count).sum())
    }

    fn count(&mut self, call: Call, code: u32, lent: &Lent) {
        *self.codes.entry((call, code)).or_default() += 1;
        let certifies = matches!(call, Call::Certify | Call::CertifyStaged);
        if certifies && code == 0 && lent.answer.words()[2] > 0 {
            self.best += usize::from(lent.answer.words()[0] == 0);
            self.gaps += usize::from(lent.answer.words()[0] > 0);
        }
    }
}

const LONG: Scale = Scale {
    plate: 1000,
    kerf: 20,
    side: 1000,
    kinds: 64,
    price: 1_000_000,
    demand: 255,
    weight: 255,
    work: 20_000_000,
};

#[test]
fn small_inputs_agree() {
    agree(1, 12_000, SMALL_WORK).iter().for_each(|tally| every_code_is_met(tally, 20));
}

/// The same with grain, on fewer inputs.
#[test]
fn small_inputs_with_grain_agree() {
    let random = &mut Random::new(6);
    for turning in [TURNING, TURNING | OLD_BLOCK, 0] {
        let choices = turning | GRAIN;
        every_code_is_met(&(choices, agree_with(random, 8_000, SMALL_WORK, choices)), 10);
    }
}

const SMALL_WORK: Scale = Scale { work: 300_000, ..SMALL };

/// Expects each call to have given each code that it can give under the choices so many times.
fn every_code_is_met((choices, tally): &(u32, Tally), times: usize) {
    let chosen = |bit| choices & bit != 0;
    let possible = |code: &u32| match code {
        27 => !chosen(OLD_BLOCK),
        35 => chosen(GRAIN),
        36 => chosen(GRAIN) && chosen(TURNING),
        _ => true,
    };
    for call in ALL_CALLS {
        let seen = |code: &u32| tally.codes.get(&(call, *code)).copied().unwrap_or(0);
        for code in codes(call).into_iter().filter(possible) {
            assert!(seen(&code) >= times, "{call:?} gave {code} only {} times", seen(&code));
        }
    }
    assert!(tally.best >= 100 && tally.gaps >= 100, "{} best, {} gaps", tally.best, tally.gaps);
}

#[test]
fn medium_inputs_agree() {
    agree(2, 1500, Scale { plate: 18, kinds: 8, side: 9, price: 60, demand: 4, weight: 3, ..LONG });
}

#[test]
fn many_kinds_agree() {
    agree(3, 1500, Scale { plate: 9, side: 9, kinds: 64, demand: 2, weight: 1, ..LONG });
}

#[test]
fn large_plates_agree() {
    agree(4, 100, Scale { plate: 120, side: 60, kinds: 12, price: 5000, weight: 0, ..LONG });
}

#[test]
fn large_capacities_agree() {
    agree(5, 300, Scale { plate: 4, side: 3, kinds: 3, price: 50, demand: 12, weight: 60, ..LONG });
}

/// The codes that a call can give.
fn codes(call: Call) -> Vec<u32> {
    let others: &[u32] = match call {
        Call::CheckPlan | Call::CheckPlanBlock => &[10, 11, 12, 13, 14, 15, 16, 17, 18, 26, 36],
        Call::CheckModel => &[31, 32, 33],
        Call::TruePlan => &[31, 32, 10, 11, 12, 13, 14, 15, 16, 17, 18, 26, 36, 34, 21],
        Call::PlatesNeeded => &[8, 9, 19, 20],
        Call::BoundLagrangian => &[8, 9, 37, 38, 19, 20],
        Call::Bound => &[8, 9, 19, 20],
        Call::WritePlan => &[8, 9, 19, 20, 21],
        Call::NeatPlan => &[10, 11, 12, 13, 14, 15, 16, 17, 18, 21, 26, 36],
        Call::Certify => &[8, 9, 10, 11, 12, 13, 14, 15, 16, 17, 18, 19, 20, 26, 36],
        Call::BoundTwo => &[8, 9, 19, 20, 24, 25],
        Call::Exact => &[19, 20, 21, 30],
        Call::FindWeights => &[10, 11, 12, 13, 14, 15, 16, 17, 18, 19, 20, 21, 26, 36],
        Call::CheckPlanStaged => &[10, 11, 12, 13, 14, 15, 16, 17, 18, 22, 23, 26, 36],
        Call::BoundStaged => &[8, 9, 19, 20, 22],
        Call::CertifyStaged => &[8, 9, 10, 11, 12, 13, 14, 15, 16, 17, 18, 19, 20, 22, 23, 26, 36],
    };
    (0..=7).chain(others.iter().copied()).chain([27, 35, 100, 101]).collect()
}

/// Compares every call on so many inputs for each word of choices, with the new block and the old.
fn agree(seed: u64, inputs: usize, scale: Scale) -> Vec<(u32, Tally)> {
    let random = &mut Random::new(seed);
    let words = ALL_CHOICES.into_iter().flat_map(|choices| [choices, choices | OLD_BLOCK]);
    words.map(|choices| (choices, agree_with(random, inputs, scale, choices))).collect()
}

/// At least a third of the calls must be done.
fn agree_with(random: &mut Random, inputs: usize, scale: Scale, choices: u32) -> Tally {
    let mut tally = Tally::default();
    for _ in 0..inputs {
        let input = draw_affordable(random, scale, choices);
        let order = short_order(random, &input, scale.work.min(1_000_000));
        for call in ALL_CALLS {
            if call == Call::CheckModel && !few_chains(&input) {
                continue;
            }
            let input = if call == Call::Exact { &order } else { &input };
            let sizes = draw_sizes(random, call, input, scale.work);
            let (code, lent) = tally.compare(call, input, sizes);
            match (call, code) {
                (Call::WritePlan | Call::Exact, 0) => {
                    let planned = input.with_written_plan(&lent);
                    written_plan_agrees(random, call, &planned, sizes, &mut tally);
                }
                (Call::NeatPlan, 0) => {
                    neat_plan_agrees(random, &input.with_neat_plan(&lent), sizes, &mut tally);
                }
                (Call::TruePlan, 0) => {
                    let nodes = lent.answer.words()[0] as usize;
                    tally.compare(call, input, short_of(random, nodes, sizes));
                }
                _ => {}
            }
        }
    }
    let (all, done) = tally.compared();
    println!("choices {choices}: {inputs} inputs, {all} calls compared, {done} of them done");
    assert!(all >= (ALL_CALLS.len() - 1) * inputs && 3 * done >= all);
    tally
}

/// The neat plan again, into arrays that just hold it or do not.
fn neat_plan_agrees(random: &mut Random, neat: &Input, sizes: Sizes, tally: &mut Tally) {
    tally.compare(Call::NeatPlan, neat, short_of(random, neat.kinds.len(), sizes));
}

/// Arrays that just hold so many nodes or do not.
fn short_of(random: &mut Random, nodes: usize, sizes: Sizes) -> Sizes {
    let short = random.pick(&[(0, 0), (1, 0), (0, 1)]);
    Sizes { kinds: nodes - short.0, operands: nodes - short.1, ..sizes }
}

/// Whether the reference can list every chain of pieces at the true sizes in a short time.
fn few_chains(input: &Input) -> bool {
    let Ok(model) = Job::read(&input.job, input.choices) else { return true };
    let Ok(job) = true_job(&model, &input.sizes) else { return true };
    let room = |job: &Job| job.length.max(job.width) + job.kerf;
    let copies = |kind: &Kind| {
        let side = kind.length.min(kind.width) + job.kerf;
        (room(&job) / side).min(kind.demand as usize)
    };
    room(&job) * room(&model) * job.kinds.iter().map(copies).sum::<usize>() <= 20_000
}

/// The written plan again, into arrays that just hold it or do not; and as input of the checks.
fn written_plan_agrees(random: &mut Random, call: Call, planned: &Input, sizes: Sizes, tally: &mut Tally) {
    let nodes = planned.kinds.len();
    let short = random.pick(&[(0, 0), (0, 0), (1, 0), (0, 1), (nodes, nodes)]);
    let tight = Sizes { kinds: nodes - short.0, operands: nodes - short.1, ..sizes };
    tally.compare(call, planned, tight);
    if random.one_in(4) {
        for call in [Call::CheckPlan, Call::CheckPlanBlock, Call::Certify] {
            tally.compare(call, planned, Sizes { answer: STAGED_REPORT_WORDS, ..sizes });
        }
        let table = blocks(planned) * sizes.table;
        for call in [Call::CheckPlanStaged, Call::CertifyStaged] {
            tally.compare(call, planned, Sizes { answer: STAGED_REPORT_WORDS, table, ..sizes });
        }
    }
}

/// Draws an input, damages it, and draws again where the reference would take too long.
fn draw_affordable(random: &mut Random, scale: Scale, choices: u32) -> Input {
    loop {
        let mut input = draw(random, scale, choices).within(draw_limit(random));
        draw_second(random, scale, &mut input);
        damage(random, &mut input);
        damage_second(random, &mut input);
        damage_sizes(random, &mut input);
        damage_multipliers(random, &mut input);
        if work(&input) <= scale.work {
            return input;
        }
    }
}

/// Mostly a limit that is accepted, the low ones more often, as few plans have many stages.
fn draw_limit(random: &mut Random) -> u32 {
    match random.from(0, 31) {
        0 => random.pick(&[0, 9]),
        1 => random.pick(&[10, 255, 256, 257, 1 << 16 | 1, 1 << 31 | 8, u32::MAX]),
        2..=15 => random.from(1, 2) as u32,
        _ => random.from(1, 8) as u32,
    }
}

/// The blocks of the staged table; one where the limit is refused.
fn blocks(input: &Input) -> usize {
    if (1..=8).contains(&input.limit) {
        2 * input.limit as usize + 1
    } else {
        1
    }
}

/// Second weights: none, few, or as heavy as the first.
fn draw_second(random: &mut Random, scale: Scale, input: &mut Input) {
    let heaviest = random.pick(&[0, 1, 2, scale.weight]).min(scale.weight);
    input.second = input.weights.iter().map(|_| random.from(0, heaviest) as u8).collect();
}

/// The sums that the reference forms, about.
fn work(input: &Input) -> usize {
    let Ok(job) = Job::read(&input.job, input.choices) else { return 0 };
    let staged = capacity(&job, &input.weights).map_or(0, |q| splits(q) * (blocks(input) + 1) / 2);
    let two = capacities(&job, &input.weights, &input.second);
    cuts(&job) * staged.max(two.map_or(0, |[first, second]| splits(first) * splits(second)))
}

/// The cuts that the reference tries, about.
fn cuts(job: &Job) -> usize {
    job.length * job.width * (job.length + job.width) / 2
}

/// The ways to share out every part of a capacity.
fn splits(capacity: usize) -> usize {
    (capacity + 1) * (capacity + 2) / 2
}

fn draw_sizes(random: &mut Random, call: Call, input: &Input, work: usize) -> Sizes {
    let (lengths, widths, words) = needs(call, input);
    let rounds = call == Call::FindWeights;
    let table = if rounds { words * draw_shares(random, input, work) } else { words };
    let mut nodes = || if rounds && random.one_in(4) { random.from(0, 20) } else { 4095 };
    let (kinds, operands) = (nodes(), nodes());
    Sizes {
        lengths: near(random, lengths),
        widths: near(random, widths),
        table: near(random, table),
        kinds,
        operands,
        answer: near(random, call.answer_words()),
    }
}

/// The shares of a round that the table is to hold: as many as the reference can fill for eighteen
/// rounds in a short time, now and then fewer. A round that needs more ends the run.
fn draw_shares(random: &mut Random, input: &Input, work: usize) -> usize {
    let Ok(job) = Job::read(&input.job, input.choices) else { return 1 };
    let affordable = |capacity: &usize| cuts(&job) * splits(*capacity) <= (work / 4).min(500_000);
    let most = (0..4096).take_while(affordable).count().max(1);
    match random.from(0, 7) {
        0 => 1,
        1 | 2 => random.from(1, most),
        _ => most,
    }
}

/// Mostly enough, at times exactly, one short or nothing.
fn near(random: &mut Random, needed: usize) -> usize {
    match random.from(0, 31) {
        0 | 1 => needed - 1,
        2 => random.from(0, needed - 1),
        3..=20 => needed,
        _ => needed + random.from(1, 9),
    }
}

/// The words that lists and table need; anything for a job that is refused.
fn needs(call: Call, input: &Input) -> (usize, usize, usize) {
    let Ok(job) = Job::read(&input.job, input.choices) else { return (4, 4, 16) };
    let shares = capacity(&job, &input.weights).map_or(1, |q| q + 1);
    let words = match call {
        Call::BoundTwo => {
            capacities(&job, &input.weights, &input.second).map_or(1, |both| (both[0] + 1) * (both[1] + 1))
        }
        Call::Exact => Copies::of(&job).map_or(1, |copies| copies.states),
        Call::FindWeights => 1,
        call if STAGED_CALLS.contains(&call) => blocks(input) * shares,
        _ => shares,
    };
    let (lengths, widths) = normal_positions(&job);
    let list = |side: usize| side + job.kerf + 1;
    (list(job.length), list(job.width), lengths.len() * widths.len() * words)
}
