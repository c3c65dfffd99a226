// The saw beside the office: the proved calls against the reference, blocks that differ only in
// prices against each other, and the check of the saw against that of the office.
use crate::damage::damage;
use crate::deep::{deep_plans, longest_plan_of_waste};
use crate::examples::{input, Node};
use crate::inputs::{draw, SMALL};
use crate::lent::{Lent, Sizes, AMPLE};
use crate::run::Input;
use crate::stack::fits_small_stack;
use outside::answers::{Refusal, FULL_DEMAND, OLD_BLOCK, SAW_WORDS, TURNING};
use outside::blocks::{job_block, job_s, kerf_block, old_block};
use outside::random::Random;
use outside::reference;
use outside::slices;
use std::collections::BTreeMap;

const PLAN: [Node; 5] = [(2, 2), (1, 0), (3, 1), (1, 1), (1, 2)];

/// A call of the saw: its check, or the part of a node in the kinds or in the operands.
#[derive(Clone, Copy, Debug)]
pub enum Saw {
    Check,
    Kinds(u64),
    Operands(u64),
}

impl Saw {
    fn words(self) -> usize {
        if let Saw::Check = self {
            SAW_WORDS
        } else {
            2
        }
    }

    fn proved(self, i: &Input, answer: &mut [u64]) -> u32 {
        use slices::calls::{saw_check, saw_kinds, saw_operands};
        match self {
            Saw::Check => saw_check(&i.job, i.choices, &i.kinds, &i.operands, answer),
            Saw::Kinds(n) => saw_kinds(&i.job, i.choices, &i.kinds, &i.operands, n, answer),
            Saw::Operands(n) => saw_operands(&i.job, i.choices, &i.kinds, &i.operands, n, answer),
        }
    }

    fn expected(self, i: &Input, answer: &mut [u64]) -> u32 {
        use reference::calls::{saw_check, saw_kinds, saw_operands};
        match self {
            Saw::Check => saw_check(&i.job, i.choices, &i.kinds, &i.operands, answer),
            Saw::Kinds(n) => saw_kinds(&i.job, i.choices, &i.kinds, &i.operands, n, answer),
            Saw::Operands(n) => saw_operands(&i.job, i.choices, &i.kinds, &i.operands, n, answer),
        }
    }

    /// Runs the call on both, with so many words of answer; gives the code and the words.
    pub fn agrees(self, input: &Input, words: usize) -> (u32, Vec<u64>) {
        let [mut expected, mut given] = [(); 2].map(|()| memory(words));
        let code = self.expected(input, expected.split().2);
        assert_eq!(self.proved(input, given.split().2), code, "{self:?} {input:?}");
        assert_eq!(given.differences(&expected), Vec::<&str>::new(), "{self:?} {input:?}");
        (code, given.answer.words().to_vec())
    }
}

fn memory(answer: usize) -> Lent {
    Lent::new(Sizes { lengths: 0, widths: 0, table: 0, kinds: 0, operands: 0, answer })
}

/// Every word of choices that has a meaning.
fn all_choices() -> impl Iterator<Item = u32> {
    0..=TURNING | FULL_DEMAND | OLD_BLOCK
}

/// The same block with other price bytes, most of them beyond 1,000,000.
fn repriced(random: &mut Random, input: &Input) -> Input {
    let mut other = input.clone();
    let header = if input.choices & OLD_BLOCK == 0 { 8 } else { 6 };
    let count = input.job.get(4..6).map_or(0, |n| usize::from(u16::from_le_bytes([n[0], n[1]])));
    let pairs = other.job.iter_mut().skip(header + 4 * count).take(6 * count);
    for (_, byte) in pairs.enumerate().filter(|(at, _)| at % 6 < 4) {
        *byte = random.word() as u8;
    }
    other
}

#[test]
fn copies_and_areas_are_reported_and_no_profit() {
    let i = input(job_s(), &[], &PLAN);
    let (code, words) = Saw::Check.agrees(&i, SAW_WORDS + 2);
    assert_eq!((code, &words[..6], words[67]), (0, &[13, 0, 2, 1, 1, 1][..], 0));
    let sawn = input(kerf_block(10, 3, 1, &[(3, 3, 5, 2)]), &[], &[(2, 3), (1, 0), (1, 0)]);
    let (code, words) = Saw::Check.agrees(&sawn, SAW_WORDS);
    assert_eq!((code, &words[..4], words[67]), (0, &[18, 0, 9, 2][..], 3));
}

#[test]
fn six_is_never_given_and_all_else_in_the_old_order() {
    let kinds = |price, demand| [(2, 3, price, 1), (3, 1, u32::MAX, demand)];
    let waste = |job| input(job, &[], &[(0, 0)]);
    for (job, choices) in
        [(job_block(5, 3, &kinds(1_000_001, 2)), 0), (old_block(5, 3, &kinds(1_000_001, 2)), OLD_BLOCK)]
    {
        assert_eq!(Saw::Check.agrees(&waste(job).with(choices), SAW_WORDS).0, 0);
    }
    let refused = |job, number, place| {
        let (code, words) = Saw::Check.agrees(&waste(job), SAW_WORDS);
        assert_eq!((code, words[0]), (number, place));
    };
    refused(job_block(5, 3, &kinds(1_000_001, 256)), 7, 1);
    refused(kerf_block(5, 3, 21, &kinds(1, 256)), 27, 0);
    refused(job_block(5, 3, &[(2, 3, 9, 256), (0, 1, 9, 1)]), 5, 1);
    refused(job_block(5, 0, &kinds(1, 1)), 2, 0);
    refused(vec![0; 7], 1, 0);
}

#[test]
fn parts_are_those_of_the_callers_own_arrays() {
    let i = input(job_s(), &[], &PLAN);
    for (node, first, entries) in [(0, 0, 5), (1, 1, 1), (2, 2, 3), (3, 3, 1), (4, 4, 1), (5, 5, 0)] {
        for call in [Saw::Kinds(node), Saw::Operands(node)] {
            assert_eq!(call.agrees(&i, 2), (0, vec![first, entries]));
        }
        let end = (first + entries) as usize;
        let kinds = slices::saw_kinds(&i.job, 0, &i.kinds, &i.operands, node).expect("a part");
        assert!(std::ptr::eq(kinds, &i.kinds[first as usize..end]));
        let operands = slices::saw_operands(&i.job, 0, &i.kinds, &i.operands, node).expect("a part");
        assert!(std::ptr::eq(operands, &i.operands[first as usize..end]));
    }
}

#[test]
fn a_plan_that_does_not_pass_yields_the_end_of_each_array() {
    let mut i = input(job_s(), &[], &PLAN);
    i.operands.pop();
    assert_eq!(Saw::Check.agrees(&i, SAW_WORDS).0, 10);
    assert_eq!(Saw::Kinds(0).agrees(&i, 2), (0, vec![5, 0]));
    assert_eq!(Saw::Operands(0).agrees(&i, 2), (0, vec![4, 0]));
    let idle = input(job_s(), &[], &[(2, 2), (0, 0), (0, 0)]);
    assert_eq!(Saw::Kinds(1).agrees(&idle, 2), (0, vec![3, 0]));
    i.job.clear();
    assert_eq!(Saw::Operands(u64::MAX).agrees(&i, 2), (0, vec![4, 0]));
}

#[test]
fn short_answers_and_unknown_choices_change_nothing() {
    let i = input(job_s(), &[], &PLAN);
    for call in [Saw::Check, Saw::Kinds(0), Saw::Operands(9)] {
        assert_eq!(call.agrees(&i, call.words() - 1).0, 100);
        assert_eq!(call.agrees(&i.clone().with(16), call.words()).0, 101);
        assert_eq!(call.agrees(&i.clone().with(16), call.words() - 1).0, 100);
    }
    let unknown = slices::saw_kinds(&i.job, 16, &i.kinds, &i.operands, 0);
    assert_eq!(unknown.map_err(|refusal| refusal.number), Err(101));
}

#[test]
fn generated_inputs_agree_whatever_their_prices() {
    let random = &mut Random::new(9);
    let (mut inputs, mut calls, mut passed) = (0, 0, 0);
    let mut met: BTreeMap<u32, usize> = BTreeMap::new();
    for choices in all_choices() {
        for _ in 0..3000 {
            inputs += 1;
            let mut office = draw(random, SMALL, choices);
            damage(random, &mut office);
            let saw = repriced(random, &office);
            passed += usize::from(beside_the_office(&office, &saw));
            *met.entry(Saw::Check.agrees(&saw, SAW_WORDS).0).or_insert(0) += 1;
            calls += 2 * saw_agrees(random, &office, &saw);
        }
    }
    println!("the saw: {inputs} inputs, {calls} calls compared, {passed} plans passed by the office");
    assert!(passed >= 4000, "{passed} plans passed");
    let expected = (0..=5).chain([7]).chain(10..=18).chain([26, 27, 101]);
    assert!(expected.eq(met.keys().copied()), "{met:?}");
    assert!(met.values().all(|&times| times >= 20), "{met:?}");
}

/// Every call of the saw, on both blocks; gives the number of calls.
fn saw_agrees(random: &mut Random, office: &Input, saw: &Input) -> usize {
    let nodes = office.kinds.len().max(office.operands.len()) as u64;
    let parts = (0..nodes + 2).chain([random.word()]);
    let parts = parts.flat_map(|node| [Saw::Kinds(node), Saw::Operands(node)]);
    let calls: Vec<Saw> = parts.chain([Saw::Check]).collect();
    for call in &calls {
        let words = call.words() + random.from(0, 2);
        assert_eq!(call.agrees(office, words), call.agrees(saw, words), "{call:?} {office:?} {saw:?}");
    }
    calls.len()
}

/// Where the office's check passes, so does the saw's at any prices, with its copies and areas.
fn beside_the_office(office: &Input, saw: &Input) -> bool {
    let Input { job, choices, kinds, operands, .. } = office;
    let given = slices::saw_check(&saw.job, *choices, kinds, operands);
    match slices::check_plan(job, *choices, kinds, operands) {
        Ok(r) => {
            let s = given.expect("a plan that the office passes");
            assert_eq!((s.copies, s.pieces, s.waste), (r.copies, r.pieces, r.waste));
            assert_eq!((s.trim, s.sawdust), (r.trim, r.sawdust));
            true
        }
        Err(Refusal { number: 6, .. }) => false,
        Err(refusal) => {
            assert_eq!(given, Err(refusal), "{office:?}");
            false
        }
    }
}

#[test]
fn deepest_plans_fit_the_stack() {
    for (kerf, choices) in [(0, 0), (0, TURNING), (20, 0)] {
        let longest = (kerf == 0).then(longest_plan_of_waste);
        for nodes in deep_plans(kerf).into_iter().chain(longest) {
            let job = kerf_block(1000, 1000, kerf, &[(1, 1, u32::MAX, 2)]);
            let i = input(job, &[], &nodes).with(choices);
            let middle = nodes.len() as u64 / 2;
            for call in [Saw::Check, Saw::Kinds(0), Saw::Operands(middle)] {
                let what = format!("{call:?}, choices {choices}, {} nodes", nodes.len());
                let (code, lent) = fits_small_stack(&what, || {
                    let mut lent = memory(AMPLE.answer);
                    (call.proved(&i, lent.split().2), lent)
                });
                let mut expected = memory(AMPLE.answer);
                assert_eq!(code, call.expected(&i, expected.split().2));
                assert_eq!((code, lent.differences(&expected)), (0, vec![]));
            }
        }
    }
}

/// The most rectangles wait where a plan ends after its last nested cut.
#[test]
fn plans_that_end_at_their_deepest_fit_the_stack() {
    for nested in [1, 3] {
        let plan = &deep_plans(0)[nested][..1998];
        let i = input(kerf_block(1000, 1000, 0, &[(1, 1, 1, 2)]), &[], plan);
        for (call, expected) in [(Saw::Check, 17), (Saw::Kinds(0), 0), (Saw::Operands(0), 0)] {
            let what = format!("{call:?} of a plan that ends");
            let (code, lent) = fits_small_stack(&what, || {
                let mut lent = memory(AMPLE.answer);
                (call.proved(&i, lent.split().2), lent)
            });
            assert_eq!((code, lent.answer.words()[0]), (expected, 1998));
        }
    }
}
