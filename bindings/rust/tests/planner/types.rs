// Trees and plans, jobs and blocks, refusals in words.
use crate::{best, first_nodes, job_s, piece, planner};
use planner::answers::Refusal;
use planner::{Choices, Error, Job, Plan, Reason, Tree, TrueSizes};

#[test]
fn trees_are_plans_in_preorder() {
    let plan = best().plan();
    assert_eq!(plan, Plan { kinds: vec![2, 1, 3, 1, 1], operands: vec![2, 0, 1, 1, 2] });
    assert_eq!(plan.tree(), Some(best()));
    let tree = best();
    let nodes = tree.nodes();
    assert!(nodes.len() == 5 && *nodes[0] == tree && *nodes[1] == piece(0) && *nodes[4] == piece(2));
    assert_eq!(Plan::from_block(&plan.block()), Some(plan.clone()));
    for nodes in 0..plan.kinds.len() {
        assert_eq!(first_nodes(&plan, nodes).tree(), None);
        assert_eq!(Plan::from_block(&plan.block()[..3 * nodes]), None);
    }
    assert_eq!(Plan::of_trees([&tree, &Tree::Waste]).tree(), None);
}

#[test]
fn jobs_are_blocks() {
    let kerf = Job { kerf: 2, ..job_s() };
    for bits in 0..16 {
        let choices = Choices::from_word(bits);
        assert_eq!(choices.word(), bits);
        let mut job = if choices.old_block { job_s() } else { kerf.clone() };
        job.kinds[1].grain = choices.grain;
        let block = Job { kerf: 2, ..job.clone() }.block(choices);
        assert_eq!(block.len(), if choices.old_block { 36 } else { 38 } + 3 * usize::from(choices.grain));
        assert_eq!(Job::from_block(&block, choices), Some(job));
        assert_eq!(Job::from_block(&block[1..], choices), None);
    }
    let grain = Choices { grain: true, ..Choices::default() };
    let mut block = job_s().block(grain);
    *block.last_mut().expect("a grain byte") = 2;
    assert_eq!(Job::from_block(&block, grain), None);
}

#[test]
fn true_sizes_are_blocks() {
    let sizes = TrueSizes { length: 0x0102_0304, width: 5, kerf: 6, kinds: vec![[7, 8], [9, 10]] };
    let block = sizes.block();
    assert_eq!(block.len(), 28);
    assert_eq!(block[..8], [4, 3, 2, 1, 5, 0, 0, 0]);
    assert_eq!(TrueSizes::from_block(&block), Some(sizes));
    for bytes in [0, 8, 24, 27] {
        assert_eq!(TrueSizes::from_block(&block[..bytes]), None);
    }
}

/// A cut in the first part of a cut, and so on, or each in the second part of the one before.
#[test]
fn trees_may_be_a_million_cuts_deep() {
    let cuts = 1_000_000;
    let first = [vec![2; cuts], vec![0; cuts + 1]].concat();
    let second: Vec<u8> = (0..cuts).flat_map(|_| [3, 0]).chain([0]).collect();
    for kinds in [first, second] {
        let operands = kinds.iter().map(|kind| u16::from(*kind > 0)).collect();
        let plan = Plan { kinds, operands };
        let tree = plan.tree().expect("a tree");
        assert_eq!((tree.nodes().len(), tree.plan() == plan), (2 * cuts + 1, true));
        let mut other = tree.clone();
        assert!(tree == other && format!("{tree:?}").len() > cuts);
        while let Tree::Cut { first, second, .. } = other {
            other = if *first == Tree::Waste { second } else { first }.into_tree();
        }
        assert!(tree != other && first_nodes(&plan, 2 * cuts).tree().is_none());
    }
}

#[test]
fn refusals_say_their_place() {
    let refused = planner(0).check(&Tree::Piece { kind: 0, turned: true }.plan());
    let words = "refusal 12 at node 0: no node has this kind, or the piece is turned and pieces may not be";
    assert_eq!(refused.expect_err("no turning").to_string(), words);
    let said = |number, place| Refusal { number, place }.to_string();
    assert_eq!(said(2, 3), "refusal 2 at plate 3: a side of the plate is outside 1 to 1,000 units");
    assert_eq!(said(7, 5), "refusal 7 at kind 5: the demand is above 255");
    assert_eq!(said(29, 1), "refusal 29 at plate 1: copies over the plans so far pass a demand");
    assert_eq!(said(20, 9000), "refusal 20, 9000 words are needed: the table is too short");
    let nodes = "refusal 21, 5000 nodes are needed: the plan needs more nodes than there is room for";
    assert_eq!(said(21, 5000), nodes);
    assert_eq!(said(22, 0), "refusal 22: the limit on stages is outside 1 to 8");
    let model = "the model does not stand for the true sizes";
    assert_eq!(said(33, 0), format!("refusal 33 along the length: {model}"));
    assert_eq!(said(33, 1), format!("refusal 33 along the width: {model}"));
    assert_eq!(said(36, 4), "refusal 36 at node 4: the piece is turned and its kind keeps its grain");
    assert!(said(32, 0).starts_with("refusal 32: ") && said(32, 3).starts_with("refusal 32 at kind 2: "));
    let memory = Error::Memory((1 << 17) + 1).to_string();
    assert_eq!(memory, "the table needs 2 MiB, more than may be used");
}

#[test]
fn places_are_of_one_sort() {
    for number in (1..=38).chain([100, 101]) {
        let refusal = Refusal { number, place: 4 };
        let sorts = [("kind", refusal.kind()), ("node", refusal.node()), ("plate", refusal.plate())];
        let said = refusal.to_string();
        let (words, _) = said.split_once(": ").expect("a number and its words");
        let named = sorts.map(|(sort, place)| (place, words.contains(&format!(" at {sort} "))));
        assert!(named.iter().all(|(place, named)| place.is_some() == *named), "{said}");
        assert!(named.iter().filter(|(_, named)| *named).count() <= 1, "{said}");
    }
}

#[test]
fn every_reason_has_a_number_and_words_of_its_own() {
    let numbers: Vec<u32> = (1..=38).chain([100, 101]).collect();
    let of_numbers: Vec<Reason> = numbers.iter().map(|number| Reason::of(*number)).collect();
    assert_eq!(of_numbers, Reason::ALL);
    assert!(Reason::ALL.iter().zip(&numbers).all(|(reason, number)| reason.number() == Some(*number)));
    assert_eq!(
        (Reason::of(0), Reason::of(39), Reason::Unknown.number()),
        (Reason::Unknown, Reason::Unknown, None)
    );
    let mut words: Vec<_> =
        Reason::ALL.iter().chain([&Reason::Unknown]).map(|reason| reason.words()).collect();
    words.sort_unstable();
    words.dedup();
    assert_eq!(words.len(), numbers.len() + 1);
}

/// The names of the table of calls.
macro_rules! names {
    ($($(#[$doc:meta])* $name:ident $takes:tt -> $answer:ty;)*) => {
        const NAMES: &[&str] = &[$(stringify!($name)),*];
    };
}

planner::calls!(names);

#[test]
fn the_table_has_the_calls_of_the_header() {
    let header = include_str!("../../../../include/planner.h");
    let declared =
        header.lines().filter_map(|line| line.strip_prefix("uint32_t planner_")?.strip_suffix('('));
    let mut declared: Vec<&str> = declared.collect();
    let mut names = NAMES.to_vec();
    declared.sort_unstable();
    names.sort_unstable();
    assert_eq!(names, declared);
}
