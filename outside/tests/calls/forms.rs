// The default form against full demand on generated jobs: bounds, tables and refusals; and both
// against every tree within the demands, and the plans among them.
use crate::capacity::{done, forms, without_table, words, ROOM};
use crate::exact::optimum;
use crate::inputs::{self, draw, Scale};
use crate::lent::{Lent, Sizes};
use crate::run::{compare, Call, Input, ALL_CALLS};
use outside::answers::TURNING;
use outside::blocks::{kerf_block, Kind};
use outside::random::Random;
use outside::reference::Job;

/// Generated demands are often above what the plate holds.
const SMALL: Scale = Scale { demand: 9, weight: 4, ..inputs::SMALL };
const SMALL_ROOM: Sizes = Sizes { lengths: 28, widths: 28, table: 1 << 14, ..ROOM };

/// Generated inputs without and with turning.
fn generated(seed: u64, count: usize, scale: Scale) -> impl Iterator<Item = Input> {
    let mut random = Random::new(seed);
    (0..count).map(move |i| draw(&mut random, scale, [0, TURNING][i % 2]))
}

/// What a bound answers and leaves in the table, cell by cell.
struct Bounded<'a> {
    bound: u64,
    capacity: usize,
    cells: Vec<&'a [u64]>,
}

impl Bounded<'_> {
    fn of(lent: &Lent) -> Bounded<'_> {
        let &[bound, capacity, p, r, ..] = lent.answer.words() else { panic!("four words") };
        let capacity = capacity as usize;
        let cells = lent.table.words().chunks_exact(capacity + 1).take((p * r) as usize).collect();
        Bounded { bound, capacity, cells }
    }
}

/// Shares have the same figures in both forms, and the full demand has more shares.
#[test]
fn the_default_bound_is_never_above_the_full_one() {
    let (mut fewer, mut lower) = (0, 0);
    for input in generated(41, 2000, SMALL) {
        let lent = forms(&input).map(|form| done(Call::Bound, &form, SMALL_ROOM));
        let [held, full] = lent.each_ref().map(Bounded::of);
        assert!(held.bound <= full.bound && held.capacity <= full.capacity, "{input:?}");
        let first_shares = full.cells.iter().map(|cell| &cell[..=held.capacity]);
        assert!(held.cells.iter().copied().eq(first_shares), "{input:?}");
        assert!(lent[0].lengths == lent[1].lengths && lent[0].widths == lent[1].widths);
        fewer += usize::from(held.capacity < full.capacity);
        lower += usize::from(held.bound < full.bound);
    }
    println!("{fewer} capacities and {lower} bounds of 2000 are lower");
    assert!(fewer >= 500 && lower >= 50);
}

#[test]
fn the_default_form_accepts_what_the_full_demand_does() {
    let heavy = Scale { plate: 40, side: 12, kinds: 8, demand: 255, weight: 40, ..SMALL };
    let mut seen = [0; 3];
    for input in generated(42, 3000, heavy) {
        let [held, full] = forms(&input).map(|form| without_table(Call::Bound, &form));
        match (held.0, full.0) {
            (20, 20) => {
                assert!(held.1 <= full.1, "{input:?}");
                seen[0] += 1;
            }
            (20, 9) => seen[1] += 1,
            (9, 9) => seen[2] += 1,
            codes => panic!("{codes:?} for {input:?}"),
        }
    }
    println!("{seen:?} of 3000 are accepted in both forms, in the default form alone, in neither");
    assert!(seen.iter().all(|&times| times >= 100));
}

/// The same input with no demand above what the plate is said to hold of that kind alone.
fn lessened(input: &Input) -> Input {
    let job = Job::read(&input.job, input.choices).expect("a job");
    let block = |kinds: &[Kind]| {
        let [length, width, kerf] = [job.length, job.width, job.kerf].map(|field| field as u16);
        kerf_block(length, width, kerf, kinds)
    };
    let lesser = job.kinds.iter().map(|kind| {
        let (length, width) = (kind.length as u16, kind.width as u16);
        let alone = Input { job: block(&[(length, width, 1, 255)]), weights: vec![1], ..input.clone() };
        let held = words(Call::Bound, &alone, SMALL_ROOM)[1];
        (length, width, kind.price as u32, held.min(kind.demand) as u16)
    });
    Input { job: block(&lesser.collect::<Vec<Kind>>()), ..input.clone() }
}

/// The default form is the full demand of the lessened job, in every answer and word of lent
/// memory; and the lessened job has one answer in both forms. The exact answer has no capacity: its
/// states count every copy ordered; the rounds read how far copies lie from what is ordered; and models,
/// whole orders and multipliers read every copy ordered.
#[test]
fn demands_that_the_plate_holds_answer_alike_in_both_forms() {
    for input in generated(43, 1000, SMALL) {
        let lessened = lessened(&input);
        let counts_orders =
            [Call::Exact, Call::FindWeights, Call::CheckModel, Call::PlatesNeeded, Call::BoundLagrangian];
        for call in ALL_CALLS.into_iter().filter(|call| !counts_orders.contains(call)) {
            let run = |input: &Input| compare(call, input, SMALL_ROOM);
            let (code, lent) = run(&input);
            for alike in forms(&lessened).each_ref().map(run) {
                let differences = lent.differences(&alike.1);
                assert_eq!((alike.0, differences), (code, vec![]), "{call:?} {input:?}");
            }
        }
    }
}

/// Of every tree, written down or not.
#[test]
fn no_tree_within_the_demands_earns_more_than_either_bound() {
    let tiny = Scale { plate: 5, side: 4, kinds: 3, demand: 4, ..SMALL };
    let mut tight = [0; 2];
    for input in generated(44, 2000, tiny) {
        let most = optimum(&Job::read(&input.job, input.choices).expect("a job"));
        for (tight, form) in tight.iter_mut().zip(forms(&input)) {
            let bound = words(Call::Bound, &form, SMALL_ROOM)[0];
            assert!(most <= bound, "{most} is earned, above {bound}: {form:?}");
            *tight += usize::from(most == bound);
        }
    }
    println!("{} default and {} full-demand bounds of 2000 are earned", tight[0], tight[1]);
    assert!(tight[1] >= 100 && tight[0] >= tight[1] + 20);
}

/// The gaps of a plan that passes, in both forms.
fn gaps(planned: &Input) -> Option<[u64; 2]> {
    let (code, report) = compare(Call::CheckPlan, planned, SMALL_ROOM);
    let profit = report.answer.words()[0];
    (code == 0).then(|| {
        forms(planned).map(|form| {
            let bound = words(Call::Bound, &form, SMALL_ROOM)[0];
            assert!(profit <= bound, "{profit} is earned, above {bound}: {form:?}");
            let certificate = words(Call::Certify, &form, SMALL_ROOM);
            assert_eq!(certificate, [bound - profit, bound, profit], "{form:?}");
            bound - profit
        })
    })
}

#[test]
fn plans_are_certified_in_both_forms() {
    let (mut passed, mut best, mut tightened) = (0, 0, 0);
    for input in generated(45, 2000, SMALL) {
        let written =
            forms(&input).map(|form| form.with_written_plan(&done(Call::WritePlan, &form, SMALL_ROOM)));
        for [held, full] in written.iter().chain([&input]).filter_map(gaps) {
            assert!(held <= full);
            passed += 1;
            best += usize::from(held == 0);
            tightened += usize::from(held == 0 && full > 0);
        }
    }
    println!("{passed} plans pass, {best} are best, {tightened} of them in the default form alone");
    assert!(passed >= 500 && best >= 200 && tightened >= 20);
}
