// Plans for machines: a judged plan as a JSON document, and the trees of a document that anybody has written.
// docs/ORDERS.md says what such a document holds.
use super::{Expected, Value};
use crate::layout::{side_word, Part, Rect, Use};
use crate::millimetres::Millimetres;
use crate::order::Order;
use crate::outcome::{worth_in_words, Board, Outcome};
use crate::plan::{Direction, Tree};
use crate::search::{Filed, Model, Modelled};
use crate::verdict::Verdict;

fn mm(length: u32) -> Value {
    Value::number(Millimetres::of_thousandths(length))
}

fn sides(rect: Rect) -> Value {
    Value::object([("length", mm(rect.length)), ("width", mm(rect.width))])
}

pub fn document(outcome: &Outcome) -> Value {
    let order = &outcome.order;
    let tenths = |tenths: u128| Value::number(format!("{}.{}", tenths / 10, tenths % 10));
    let shares = outcome.shares().map(|(name, share)| (name, tenths(share)));
    let mut members = vec![
        ("kerf", Value::number(order.kerf)),
        ("pieces", Value::List(pieces(outcome))),
        ("per_cent", Value::object(shares)),
        ("worth", Value::text(outcome.worth())),
        ("best", Value::Truth(outcome.verdict.is_best())),
        ("verdict", Value::text(outcome.sentence())),
    ];
    match outcome.verdict {
        Verdict::Board { most, .. } => {
            members.push(("most_possible", Value::text(worth_in_words(order, most))));
        }
        Verdict::Order { boards, cost, least_boards, least_cost, .. } => {
            members.push(("boards_planned", Value::number(boards)));
            members.push(("boards_needed", Value::number(least_boards)));
            members.push(("cost", Value::number(cost)));
            members.push(("cost_needed", Value::number(least_cost)));
        }
        Verdict::Short { left, .. } => members.push(("left_over", Value::number(left))),
    }
    members.push(("boards", Value::List(outcome.boards.iter().map(|one| board(outcome, one)).collect())));
    if let (true, [board]) = (outcome.one, &outcome.boards[..]) {
        members.push(("plan", node(outcome, board, &board.layout.board)));
    }
    members.push(("evidence", Value::List(outcome.evidence.iter().map(evidence).collect())));
    Value::Object(members.into_iter().map(|(name, value)| (name.to_string(), value)).collect())
}

fn pieces(outcome: &Outcome) -> Vec<Value> {
    let panels = outcome.order.panels.iter().zip(outcome.copies());
    let piece = panels.map(|(panel, cut)| {
        Value::object([
            ("name", Value::text(&panel.name)),
            ("length", Value::number(panel.sides[0])),
            ("width", Value::number(panel.sides[1])),
            ("price", panel.price.map_or(Value::Null, Value::number)),
            ("turns", Value::Truth(panel.turns)),
            ("ordered", Value::number(panel.count)),
            ("cut", Value::number(cut)),
        ])
    });
    piece.collect()
}

fn board(outcome: &Outcome, board: &Board) -> Value {
    let rests = board.layout.rests.iter().map(|rest| sides(*rest)).collect();
    Value::object([
        ("plate", sides(board.layout.board.rect)),
        ("offcut", Value::Truth(outcome.order.plates[board.plate].offcut)),
        ("plan", node(outcome, board, &board.layout.board)),
        ("rests", Value::List(rests)),
    ])
}

fn node(outcome: &Outcome, board: &Board, part: &Part) -> Value {
    let size = ("size", Value::List(vec![mm(part.rect.length), mm(part.rect.width)]));
    match part.becomes {
        Use::Rest => Value::object([("waste", Value::Truth(true)), size]),
        Use::Panel { panel, turned } => Value::object([
            ("piece", Value::text(&outcome.order.panels[panel].name)),
            ("turned", Value::Truth(turned)),
            size,
        ]),
        Use::Cut(number) => {
            let cut = &board.layout.cuts[number - 1];
            let second = cut.second.map_or(Value::Null, |second| node(outcome, board, &second));
            Value::object([
                ("cut", Value::text(side_word(cut.direction))),
                ("at", mm(cut.at)),
                ("number", Value::number(number)),
                size,
                ("first", node(outcome, board, &cut.first)),
                ("second", second),
            ])
        }
    }
}

/// A board and its plan, without what can be seen from them.
pub fn tree_document(outcome: &Outcome, board: &Board) -> Value {
    Value::object([
        ("plate", sides(board.layout.board.rect)),
        ("offcut", Value::Truth(outcome.order.plates[board.plate].offcut)),
        ("plan", node(outcome, board, &board.layout.board)),
    ])
}

pub fn evidence(part: &Modelled) -> Value {
    let numbers = |numbers: &[u32]| Value::List(numbers.iter().map(Value::number).collect());
    let pair = |pair: [u16; 2]| Value::List(pair.iter().map(Value::number).collect());
    let weights = part.weights.iter().filter(|weights| !weights.is_empty());
    let weights = weights.map(|weights| Value::List(weights.iter().map(Value::number).collect()));
    Value::object([
        ("stock", Value::number(part.stock)),
        ("plate", pair(part.model.plate)),
        ("sides", Value::List(part.model.sides.iter().map(|sides| pair(*sides)).collect())),
        ("prices", numbers(&part.prices)),
        ("multipliers", numbers(&part.multipliers)),
        ("weights", Value::List(weights.collect())),
    ])
}

/// The plans of a document, or what was expected and where. A tree may stand alone, as the member `plan`, or in
/// the list `boards`.
pub fn filed(document: &Value, order: &Order) -> Result<Filed, Expected> {
    let evidence = evidence_of(document)?;
    let boards = document.get("boards").and_then(list).unwrap_or_default();
    let one = document.get("plan").is_some() || document.get("boards").is_none();
    if one {
        let stock =
            boards.first().map_or(Ok(first_plate(order)), |board| stock_of(board, order, "the plan"))?;
        let tree = tree(document.get("plan").unwrap_or(document), "the plan", order)?;
        return Ok(Filed { boards: vec![(stock, tree)], one, evidence });
    }
    let board = |(index, board): (usize, &Value)| {
        let place = format!("board {}", index + 1);
        let plan = board.get("plan").ok_or_else(|| Expected::at(&place, "a plan"))?;
        Ok((stock_of(board, order, &place)?, tree(plan, &place, order)?))
    };
    let boards = boards.iter().enumerate().map(board).collect::<Result<_, Expected>>()?;
    Ok(Filed { boards, one, evidence })
}

/// The first line of the stock that is no offcut.
fn first_plate(order: &Order) -> usize {
    order.plates.iter().position(|plate| !plate.offcut).unwrap_or(0)
}

/// The line of the stock with the sides that a board says; the first plate where it says none.
fn stock_of(board: &Value, order: &Order, place: &str) -> Result<usize, Expected> {
    let Some(plate) = board.get("plate") else {
        return Ok(first_plate(order));
    };
    let side =
        |name: &str| plate.get(name).and_then(length).ok_or_else(|| Expected::at(place, format!("a {name}")));
    let sides = [side("length")?, side("width")?];
    let offcut = board.get("offcut") == Some(&Value::Truth(true));
    let same = |plate: &crate::order::Plate| plate.sides() == sides && plate.offcut == offcut;
    order.plates.iter().position(same).ok_or_else(|| Expected::at(place, "a plate of the stock"))
}

fn length(value: &Value) -> Option<u32> {
    match value {
        Value::Number(number) => Millimetres::read(number).map(Millimetres::thousandths),
        _ => None,
    }
}

fn tree(value: &Value, place: &str, order: &Order) -> Result<Tree, Expected> {
    let expected = |what: &str| Err(Expected::at(place, what));
    if let Some(side) = value.get("cut") {
        let direction = match side {
            Value::Text(side) if side == "length" => Direction::Length,
            Value::Text(side) if side == "width" => Direction::Width,
            _ => return expected("length or width as \"cut\""),
        };
        let Some(at) = value.get("at").and_then(length) else {
            return expected("millimetres with at most three decimals as \"at\"");
        };
        let Some(first) = value.get("first") else {
            return expected("a part \"first\"");
        };
        let first = tree(first, &format!("first part of {place}"), order)?;
        let second = match value.get("second") {
            Some(Value::Null) => None,
            Some(second) => Some(tree(second, &format!("second part of {place}"), order)?),
            None => return expected("a part \"second\", or null"),
        };
        return Ok(Tree::cut(direction, at, first, second));
    }
    match (value.get("piece"), value.get("waste")) {
        (Some(Value::Text(name)), _) => {
            let Some(panel) = order.panels.iter().position(|panel| panel.name == *name) else {
                return expected(&format!("a panel of the order, found \"{name}\""));
            };
            let turned = value.get("turned") == Some(&Value::Truth(true));
            Ok(Tree::Panel { panel, turned })
        }
        (_, Some(Value::Truth(true))) => Ok(Tree::Rest),
        _ => expected("\"cut\", \"piece\" with a name, or \"waste\": true"),
    }
}

/// The evidence of a document. Whether it is of this order, the verdict finds out.
fn evidence_of(document: &Value) -> Result<Vec<Modelled>, Expected> {
    let parts = match document.get("evidence") {
        Some(Value::List(parts)) => parts,
        None | Some(Value::Null) => return Ok(Vec::new()),
        Some(_) => return Err(Expected::at("evidence", "a list")),
    };
    let wrong =
        || Expected::at("evidence", "stock, plate, sides, prices, multipliers and weights in whole numbers");
    let part = |part: &Value| {
        let stock = usize::try_from(number(part.get("stock")?)?).ok()?;
        let plate = pair(part.get("plate")?)?;
        let sides = list(part.get("sides")?)?.iter().map(pair).collect::<Option<_>>()?;
        let numbers = |name: &str| list(part.get(name)?)?.iter().map(number).collect::<Option<Vec<u32>>>();
        let (prices, multipliers) = (numbers("prices")?, numbers("multipliers")?);
        let weights = part.get("weights").map_or(Some(Default::default()), weights_of)?;
        Some(Modelled { stock, model: Model { plate, sides }, prices, multipliers, weights })
    };
    parts.iter().map(|value| part(value).ok_or_else(wrong)).collect()
}

/// No weights, one a kind or two.
fn weights_of(value: &Value) -> Option<[Vec<u8>; 2]> {
    let weights = |value: &Value| {
        list(value)?.iter().map(|value| number(value)?.try_into().ok()).collect::<Option<Vec<u8>>>()
    };
    match list(value)? {
        [] => Some(Default::default()),
        [one] => Some([weights(one)?, Vec::new()]),
        [first, second] => Some([weights(first)?, weights(second)?]),
        _ => None,
    }
}

fn list(value: &Value) -> Option<&[Value]> {
    match value {
        Value::List(values) => Some(values),
        _ => None,
    }
}

fn number(value: &Value) -> Option<u32> {
    match value {
        Value::Number(number) => number.parse().ok(),
        _ => None,
    }
}

fn pair(value: &Value) -> Option<[u16; 2]> {
    match list(value)? {
        [first, second] => Some([u16::try_from(number(first)?).ok()?, u16::try_from(number(second)?).ok()?]),
        _ => None,
    }
}
