// Cuts between the marks: every tree cut at halves, thirds or finer parts of a unit that keeps the
// demands, with pieces of whole sizes, against every bound of the job, which is found at whole units.
use crate::capacity::words;
use crate::exact::{optimum, Amounts};
use crate::examples::input;
use crate::inputs::{draw, Scale, SMALL};
use crate::lent::{Sizes, AMPLE};
use crate::run::{compare, Call, Input, ALL_CHOICES};
use crate::trees::{most, MOST_STAGES};
use outside::blocks::kerf_block;
use outside::random::Random;
use outside::reference::{self, Job};

const ROOM: Sizes = Sizes { table: 1 << 17, ..AMPLE };

/// The job in units of one m-th: sides and kerf have m times as many, and a cut stands at any of them.
pub fn finer(job: &Job, m: usize) -> Job {
    let kind =
        |kind: &reference::Kind| reference::Kind { length: m * kind.length, width: m * kind.width, ..*kind };
    Job {
        length: m * job.length,
        width: m * job.width,
        kerf: m * job.kerf,
        kinds: job.kinds.iter().map(kind).collect(),
        ..*job
    }
}

/// For each limit on stages from 0 up the most that a tree at m-ths within the demands earns.
pub fn most_within(job: &Job, m: usize) -> [u64; MOST_STAGES + 1] {
    let amounts = Amounts::of_copies(job);
    most(&finer(job, m), &amounts, &amounts.copies_of_each(job.kinds.len()))
}

/// Generated jobs with two weights a kind and a plan, the words of choices taking turns.
fn generated(seed: u64, count: usize, scale: Scale) -> impl Iterator<Item = (Input, Job)> {
    let mut random = Random::new(seed);
    (0..count).map(move |i| {
        let drawn = draw(&mut random, scale, ALL_CHOICES[i % 4]);
        let second: Vec<u8> = drawn.weights.iter().map(|_| random.from(0, scale.weight) as u8).collect();
        let job = Job::read(&drawn.job, drawn.choices).expect("a job");
        (drawn.and(&second), job)
    })
}

/// Expects no bound without a limit below what some tree earns: of one weight a kind and of two; profit
/// and gap of the certificate together, where it passes the plan.
fn no_bound_is_below(input: &Input, earned: u64) {
    let bound = words(Call::Bound, input, ROOM)[0];
    let two = words(Call::BoundTwo, input, ROOM)[0];
    assert!(earned <= bound.min(two), "{earned} is earned, bounds {bound} and {two}: {input:?}");
    let (code, lent) = compare(Call::Certify, input, ROOM);
    let (gap, profit) = (lent.answer.words()[0], lent.answer.words()[2]);
    assert!(code != 0 || (earned <= profit + gap && profit <= earned), "{input:?}");
}

/// Two pieces 2 long on a plate of 5. Cut at 5/2, each has half of the plate; with a kerf of 1 the
/// second part has 3/2 then, and only a cut at 2 leaves room for both.
#[test]
fn a_cut_at_a_half() {
    for (kerf, second) in [(0, 5), (1, 3)] {
        let nodes = [(2, 2), (1, 0), (1, 0)];
        let both = input(kerf_block(5, 1, kerf, &[(2, 1, 7, 2)]), &[1], &nodes);
        let halves = finer(&Job::read(&both.job, 0).expect("a job"), 2);
        assert_eq!((halves.second(10, 5), optimum(&halves)), (Some(second), 14));
        no_bound_is_below(&both, 14);
        assert_eq!(words(Call::Certify, &both, ROOM), [0, 14, 14]);
    }
}

/// The exact answer is what they earn, for every choice and with a kerf.
#[test]
fn no_tree_at_parts_of_a_unit_earns_more() {
    let tiny = Scale { plate: 5, kerf: 1, side: 3, kinds: 3, demand: 2, ..SMALL };
    let mut earned = 0;
    for (input, job) in generated(121, 500, tiny) {
        let [halves, thirds] = [2, 3].map(|m| optimum(&finer(&job, m)));
        assert_eq!(words(Call::Exact, &input, ROOM)[0], halves, "{input:?}");
        assert_eq!(thirds, halves, "{input:?}");
        no_bound_is_below(&input, halves);
        earned += usize::from(words(Call::Bound, &input, ROOM)[0] == halves);
    }
    println!("{earned} of 500 bounds are earned at halves");
    assert!((200..500).contains(&earned));
}

/// Down to tenths, on smaller plates.
#[test]
fn no_tree_at_tenths_earns_more() {
    let smallest = Scale { plate: 3, kerf: 1, side: 2, kinds: 2, demand: 2, ..SMALL };
    let random = &mut Random::new(122);
    for (input, job) in generated(123, 200, smallest) {
        for m in [random.from(4, 9), 10] {
            let earned = optimum(&finer(&job, m));
            assert_eq!(words(Call::Exact, &input, ROOM)[0], earned, "{input:?} at {m}-ths");
            no_bound_is_below(&input, earned);
        }
    }
}

/// Every limit from 1 to 8; the staged certificate where it passes the plan.
#[test]
fn no_tree_within_a_limit_earns_more_at_halves_and_thirds() {
    let smaller = Scale { plate: 4, kerf: 1, side: 3, kinds: 2, demand: 2, ..SMALL };
    let mut earned = 0;
    for (input, job) in generated(124, 200, smaller) {
        let [halves, thirds] = [2, 3].map(|m| most_within(&job, m));
        for limit in 1..=MOST_STAGES {
            let within = input.clone().within(limit as u32);
            let bound = words(Call::BoundStaged, &within, ROOM)[0];
            assert!(halves[limit].max(thirds[limit]) <= bound, "{within:?}");
            let (code, lent) = compare(Call::CertifyStaged, &within, ROOM);
            let (gap, profit) = (lent.answer.words()[0], lent.answer.words()[2]);
            assert!(code != 0 || profit + gap == bound && profit <= halves[limit], "{within:?}");
            earned += usize::from(limit == 2 && halves[limit] == bound);
        }
    }
    println!("{earned} of 200 bounds within two stages are earned at halves");
    assert!((50..200).contains(&earned));
}
