// True sizes: the examples of the interface, each refusal with its place and in its order, and the greatest
// sizes. What a check of a model and a true plan promise is tried on generated jobs elsewhere.
use crate::deep::{agrees, deep_plans, longest_plan_of_waste, LARGE};
use crate::examples::{answers, input, refuses, Node};
use crate::lent::{Lent, Sizes, AMPLE};
use crate::run::{compare, Call, Input};
use outside::answers::TURNING;
use outside::blocks::{job_block, kerf_block, sizes_block, Kind};

/// A model and true sizes, and a plan.
fn modelled(model: Vec<u8>, sizes: Vec<u8>, nodes: &[Node]) -> Input {
    let n = (model.len() - 8) / 10;
    input(model, &vec![0; n], nodes).at(sizes)
}

/// A plate of 2400 x 1200 mm, kerf 0.5 mm and tiles of 299.5 x 299.5 mm, in tenths.
fn felt() -> Vec<u8> {
    sizes_block(24_000, 12_000, 5, &[[2_995, 2_995]])
}

fn tiles(length: u16, width: u16) -> Vec<u8> {
    job_block(length, width, &[(1, 1, 1, 32)])
}

/// Four rows of eight tiles.
fn grid() -> Vec<Node> {
    let tile: Vec<Node> = vec![(1, 0)];
    let row = (0..7).fold(tile, |rest, _| [vec![(2, 1), (1, 0)], rest].concat());
    (0..3).fold(row.clone(), |rest, _| [vec![(3, 1)], row.clone(), rest].concat())
}

/// Expects a model to stand for the true sizes, and the answer to be kept.
fn stands(input: &Input) {
    let (code, lent) = compare(Call::CheckModel, input, AMPLE);
    assert_eq!((code, lent.differences(&Lent::new(AMPLE))), (0, vec![]), "{input:?}");
}

#[test]
fn thirty_two_tiles_are_cut_from_the_felt() {
    let felt = modelled(tiles(8, 4), felt(), &grid());
    stands(&felt);
    answers(Call::Bound, &felt, &[32]);
    answers(Call::TruePlan, &felt, &[63, 23_995, 11_995]);
    let (_, lent) = compare(Call::TruePlan, &felt, AMPLE);
    assert_eq!(lent.kinds.words()[..63], felt.kinds);
    let expected = felt.kinds.iter().map(|kind| if *kind == 1 { 0 } else { 2_995 });
    assert!(lent.positions.words()[..63].iter().copied().eq(expected));
    refuses(Call::CheckModel, &modelled(tiles(7, 4), self::felt(), &[]), 33, 0);
    refuses(Call::CheckModel, &modelled(tiles(8, 3), self::felt(), &[]), 33, 1);
    refuses(Call::CheckModel, &modelled(tiles(7, 3), self::felt(), &[]), 33, 0);
}

/// Three pieces of 330 or four of 245 fit 1,000 with a kerf of 4, as 4 and 3 fit 12 without one.
#[test]
fn a_model_is_no_rounding() {
    let sizes = sizes_block(1000, 700, 4, &[[330, 690], [245, 690]]);
    let model = |plate| job_block(plate, 1, &[(4, 1, 10, 4), (3, 1, 7, 4)]);
    stands(&modelled(model(12), sizes.clone(), &[]));
    refuses(Call::CheckModel, &modelled(model(11), sizes.clone(), &[]), 33, 0);
    let rows = [(2, 4), (1, 0), (2, 4), (1, 0), (1, 0)];
    let plan = modelled(model(12), sizes, &rows);
    answers(Call::TruePlan, &plan, &[5, 3 * 330 + 2 * 4, 690]);
}

/// Of 255 demanded copies all fit, and no model is asked for the 256th.
#[test]
fn chains_have_no_more_copies_than_demanded() {
    let model = |plate, demand| job_block(plate, 1, &[(1, 1, 1, demand)]);
    let at = |plate| sizes_block(plate, 7, 2, &[[5, 7]]);
    stands(&modelled(model(255, 255), at(255 * 7 - 2), &[]));
    stands(&modelled(model(255, 255), at(256 * 7 - 2), &[]));
    refuses(Call::CheckModel, &modelled(model(254, 255), at(255 * 7 - 2), &[]), 33, 0);
    stands(&modelled(model(254, 255), at(255 * 7 - 3), &[]));
    stands(&modelled(model(254, 254), at(255 * 7 - 2), &[]));
    stands(&modelled(model(1, 0), at(255 * 7 - 2), &[]));
}

/// The sum of the copies, each with its kerf, and the plate with one: in the model too.
#[test]
fn the_last_piece_needs_no_kerf() {
    let model = |plate| kerf_block(plate, 1, 3, &[(4, 1, 1, 9)]);
    let sizes = sizes_block(46, 1, 2, &[[10, 1]]);
    stands(&modelled(model(4 * 7 - 3), sizes.clone(), &[]));
    refuses(Call::CheckModel, &modelled(model(4 * 7 - 4), sizes, &[]), 33, 0);
}

/// A piece of 10 x 2 cannot lie turned on a plate of 10 x 5: how it lies so in the model is not asked.
#[test]
fn only_pieces_that_may_lie_on_the_true_plate_are_tried() {
    let sizes = sizes_block(10, 5, 0, &[[10, 2]]);
    let model = |length, width| modelled(job_block(1, 2, &[(length, width, 1, 9)]), sizes.clone(), &[]);
    for choices in [0, TURNING] {
        stands(&model(1, 1).with(choices));
        refuses(Call::CheckModel, &model(1, 2).with(choices), 33, 1);
        refuses(Call::CheckModel, &model(2, 1).with(choices), 33, 0);
    }
    let flat = sizes_block(10, 10, 0, &[[10, 5]]);
    let model = modelled(job_block(1, 2, &[(1, 1, 1, 9)]), flat, &[]);
    stands(&model);
    refuses(Call::CheckModel, &model.with(TURNING), 33, 0);
    let none = sizes_block(9, 5, 0, &[[10, 2]]);
    stands(&modelled(job_block(1, 1, &[(9, 9, 1, 9)]), none, &[]).with(TURNING));
}

/// Both calls, in the order of the checks.
#[test]
fn sizes_are_refused_after_the_job_and_before_the_plan() {
    let both = |input: &Input, number, place| {
        for call in [Call::CheckModel, Call::TruePlan] {
            refuses(call, input, number, place);
        }
    };
    let bad_plan: [Node; 1] = [(9, 9)];
    let kinds: [Kind; 2] = [(1, 1, 1, 1), (1, 1, 1, 1)];
    let good = sizes_block(5, 5, 0, &[[1, 1], [1, 1]]);
    both(&modelled(job_block(1, 1, &[(1, 1, 1, 256)]), vec![], &bad_plan), 7, 0);
    for bytes in [0, 12, 20, 27] {
        let short = good[..bytes].to_vec();
        both(&modelled(job_block(1, 1, &kinds), short, &bad_plan), 31, 0);
    }
    both(&modelled(job_block(1, 1, &kinds), [good.clone(), vec![0; 8]].concat(), &bad_plan), 31, 0);
    let fields = [(0, 0), (1, 0), (2, 0), (3, 1), (4, 1), (5, 2), (6, 2)];
    for (field, place) in fields {
        let mut bad = good.clone();
        bad[4 * field..][..4].copy_from_slice(&u32::MAX.to_le_bytes());
        both(&modelled(job_block(1, 1, &kinds), bad.clone(), &bad_plan), 32, place);
        bad[12..].fill(0);
        both(&modelled(job_block(1, 1, &kinds), bad, &bad_plan), 32, place.min(1));
    }
    refuses(Call::TruePlan, &modelled(job_block(1, 1, &kinds), good, &bad_plan), 12, 0);
}

#[test]
fn sizes_are_in_their_ranges() {
    let model = job_block(1, 1, &[(1, 1, 1, 1)]);
    let sized = |sizes: [u32; 5]| {
        let [length, width, kerf, l, w] = sizes;
        modelled(model.clone(), sizes_block(length, width, kerf, &[[l, w]]), &[(1, 0)])
    };
    let most = [100_000_000, 100_000_000, 1_000_000, 100_000_000, 100_000_000];
    stands(&sized(most));
    answers(Call::TruePlan, &sized(most), &[1, 100_000_000, 100_000_000]);
    stands(&sized([1, 1, 0, 1, 1]));
    for field in 0..5 {
        for change in [|most| most + 1, |_| 0] {
            let mut sizes = most;
            sizes[field] = change(sizes[field]);
            if sizes[2] == 0 {
                stands(&sized(sizes));
            } else {
                refuses(Call::CheckModel, &sized(sizes), 32, u64::from(field > 2));
                refuses(Call::TruePlan, &sized(sizes), 32, u64::from(field > 2));
            }
        }
    }
}

/// The last of 64 kinds has place 64.
#[test]
fn up_to_64_kinds() {
    let model = job_block(64, 64, &[(1, 1, 1, 255); 64]);
    let mut sizes = vec![[1_562_500, 1_562_500]; 64];
    let at = |kinds: &[[u32; 2]]| sizes_block(100_000_000, 100_000_000, 0, kinds);
    stands(&modelled(model.clone(), at(&sizes), &[]));
    sizes[63] = [1_562_499, 1_562_500];
    stands(&modelled(model.clone(), at(&sizes), &[]));
    sizes[63] = [1_538_461, 1_562_500];
    refuses(Call::CheckModel, &modelled(model.clone(), at(&sizes), &[]), 33, 0);
    sizes[63] = [1, 100_000_001];
    refuses(Call::CheckModel, &modelled(model, at(&sizes), &[]), 32, 64);
}

/// The used size, and not that of the model, must be within the plate; both arrays must hold the nodes.
#[test]
fn plans_must_fit_the_plate_and_the_arrays() {
    let plan = |length, width| {
        let sizes = sizes_block(length, width, 5, &[[2_995, 2_995]]);
        modelled(tiles(8, 4), sizes, &grid())
    };
    answers(Call::TruePlan, &plan(23_995, 11_995), &[63, 23_995, 11_995]);
    refuses(Call::TruePlan, &plan(23_994, 11_995), 34, 0);
    refuses(Call::TruePlan, &plan(23_995, 11_994), 34, 1);
    refuses(Call::TruePlan, &plan(23_994, 11_994), 34, 0);
    for (kinds, operands) in [(62, 63), (63, 62), (0, 0)] {
        let sizes = Sizes { kinds, operands, ..AMPLE };
        let (code, lent) = compare(Call::TruePlan, &plan(23_995, 11_995), sizes);
        assert_eq!((code, lent.answer.words()[0]), (21, 63));
        assert_eq!(compare(Call::TruePlan, &plan(23_994, 11_995), sizes).0, 34);
    }
    let exact = Sizes { kinds: 63, operands: 63, ..AMPLE };
    assert_eq!(compare(Call::TruePlan, &plan(23_995, 11_995), exact).0, 0);
}

/// Waste beside the pieces is left out; turned pieces have their sides exchanged.
#[test]
fn plans_are_neat_at_the_true_sizes() {
    let sizes = sizes_block(100, 100, 3, &[[20, 10], [7, 30]]);
    let model = job_block(9, 9, &[(3, 2, 1, 2), (1, 3, 1, 1)]);
    let nodes = [(2, 5), (3, 4), (4, 0), (0, 0), (3, 3), (1, 0), (2, 2), (1, 1), (0, 0)];
    let plan = modelled(model.clone(), sizes.clone(), &nodes).with(TURNING);
    let (code, lent) = compare(Call::TruePlan, &plan, AMPLE);
    assert_eq!((code, &lent.answer.words()[..3]), (0, &[5, 10 + 3 + 20, 10 + 3 + 30][..]));
    assert_eq!(lent.kinds.words()[..5], [2, 4, 3, 1, 1]);
    assert_eq!(lent.positions.words()[..5], [10, 0, 10, 0, 1]);
    let waste = modelled(model, sizes, &[(0, 0)]);
    answers(Call::TruePlan, &waste, &[1, 0, 0]);
}

/// 999 strips of the whole width and 1,000 units of the last one, each cut inside the second part of the
/// one before: the deepest plan all of whose cuts remain.
fn deepest() -> (Vec<u8>, Vec<Node>) {
    let kinds = [[(1, 1000, 1, 255); 4], [(1, 1, 1, 255); 4]].concat();
    let strips = (0..999).flat_map(|i| [(2, 1), (1, i / 250)]);
    let units = (0..999).flat_map(|i| [(3, 1), (1, 4 + i / 250)]);
    (job_block(1000, 1000, &kinds), strips.chain(units).chain([(1, 7)]).collect())
}

/// On a small stack, at the greatest sizes: plans of which nothing remains but a piece or two, and the deepest.
#[test]
fn deepest_plans_are_written() {
    let (model, nodes) = deepest();
    let strips = [[[100_000, 100_000_000]; 4], [[100_000, 100_000]; 4]].concat();
    let sizes = sizes_block(100_000_000, 100_000_000, 0, &strips);
    let deepest = modelled(model.clone(), sizes, &nodes);
    let (code, lent) = agrees(Call::TruePlan, &deepest, LARGE);
    let used = [3997, 100_000_000, 100_000_000];
    assert_eq!((code, &lent.answer.words()[..3]), (0, &used[..]));
    let sizes = sizes_block(100_000_000, 100_000_000, 1, &strips);
    let (code, lent) = agrees(Call::TruePlan, &modelled(model, sizes, &nodes), LARGE);
    assert_eq!((code, lent.answer.words()[0]), (34, 0));
    let unit = kerf_block(1000, 1000, 0, &[(1, 1, 7, 2)]);
    let sizes = sizes_block(100_000_000, 100_000_000, 1_000_000, &[[40_000_000, 40_000_000]]);
    for nodes in deep_plans(0).iter().chain([&longest_plan_of_waste()]) {
        let plan = modelled(unit.clone(), sizes.clone(), nodes);
        assert_eq!(agrees(Call::TruePlan, &plan, LARGE).0, 0);
    }
}

/// On a small stack: 64 kinds, 255 copies of each, both ways, the largest plate and kerf.
#[test]
fn the_longest_chains_are_tried() {
    for kerf in [0, 20] {
        let model = kerf_block(1000, 1000, kerf, &[(1, 1, 1, 255); 64]);
        let own = input(model.clone(), &[0; 64], &[]).with(TURNING);
        assert_eq!(agrees(Call::CheckModel, &own, LARGE).0, 0);
        let unit = 1 + u32::from(kerf);
        let plate = 1020 / unit * unit;
        let wide = sizes_block(plate * 60_000, plate * 60_000, 0, &[[unit * 60_000; 2]; 64]);
        let fits = agrees(Call::CheckModel, &own.at(wide), LARGE).0;
        assert_eq!(fits, if kerf == 0 { 33 } else { 0 });
    }
}
