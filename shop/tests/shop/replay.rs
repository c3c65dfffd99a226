// Plans replayed as the saw does it, with the true kerf, from the document and from the printed list: every panel comes
// off at exactly its size. All lengths are thousandths of a millimetre.
use shop::json::Value;
use std::collections::BTreeMap;

/// What an order says, read here on its own: plain orders without quotes.
pub struct Ordered {
    pub kerf: i64,
    pub trim: i64,
    pub panels: BTreeMap<String, (i64, i64, usize)>,
    pub turning: bool,
}

/// The copies of each panel on each board.
pub type Cut = Vec<BTreeMap<String, usize>>;

pub fn thousandths(text: &str) -> i64 {
    let (whole, decimals) = text.trim().split_once('.').unwrap_or((text.trim(), ""));
    assert!(decimals.len() <= 3, "{text}");
    format!("{whole}{decimals:0<3}").parse().unwrap_or_else(|_| panic!("{text} is no length"))
}

impl Ordered {
    pub fn read(text: &str) -> Ordered {
        let mut ordered = Ordered { kerf: 0, trim: 0, panels: BTreeMap::new(), turning: false };
        let mut headed = false;
        for line in text.lines().filter(|line| !line.trim().is_empty() && !line.starts_with('#')) {
            let cells: Vec<&str> = line.split(',').map(str::trim).collect();
            match cells[0] {
                _ if headed => {
                    let count = cells[3].parse().expect("a count");
                    let panel = (thousandths(cells[1]), thousandths(cells[2]), count);
                    ordered.panels.insert(cells[0].to_string(), panel);
                }
                "name" => headed = true,
                "trim" => ordered.trim = thousandths(cells[1]),
                "turning" => ordered.turning = cells[1] == "yes",
                "saw" => {
                    let kerf = cells.iter().find_map(|cell| cell.strip_prefix("kerf"));
                    ordered.kerf = kerf.map_or(0, thousandths);
                }
                _ => {}
            }
        }
        ordered
    }

    /// Expects a part to be exactly a panel.
    pub fn expect(&self, name: &str, turned: bool, sides: [i64; 2]) {
        let (length, width, _) = self.panels[name];
        let wanted = if turned { [width, length] } else { [length, width] };
        assert!(!turned || self.turning || length == width, "{name} is turned");
        assert_eq!(sides, wanted, "{name}");
    }

    /// Expects no more copies than are ordered.
    pub fn keeps(&self, cut: &Cut) {
        for (name, (_, _, count)) in &self.panels {
            let copies: usize = cut.iter().filter_map(|board| board.get(name)).sum();
            assert!(copies <= *count, "{copies} of {name}");
        }
    }

    /// Both parts of a side; the second is none where the blade reaches the end.
    pub fn parts(&self, side: i64, at: i64) -> (i64, Option<i64>) {
        assert!(0 < at && at < side, "{at} of {side}");
        let second = side - at - self.kerf;
        (at, (second > 0).then_some(second))
    }
}

fn length(value: &Value, name: &str) -> i64 {
    match value.get(name) {
        Some(Value::Number(number)) => thousandths(number),
        other => panic!("{name} is {other:?}"),
    }
}

pub fn from_document(document: &Value, ordered: &Ordered) -> Cut {
    let Some(Value::List(boards)) = document.get("boards") else { panic!("no boards") };
    let board = |board: &Value| {
        let plate = board.get("plate").expect("a plate");
        let mut cut = BTreeMap::new();
        let sides = [length(plate, "length"), length(plate, "width")];
        saw(board.get("plan").expect("a plan"), sides, ordered, &mut cut);
        cut
    };
    let cut = boards.iter().map(board).collect();
    ordered.keeps(&cut);
    cut
}

fn saw(node: &Value, sides: [i64; 2], ordered: &Ordered, cut: &mut BTreeMap<String, usize>) {
    if let Some(Value::Text(side)) = node.get("cut") {
        let axis = usize::from(side == "width");
        let (first, second) = ordered.parts(sides[axis], length(node, "at"));
        let part = |size: i64| {
            if axis == 0 {
                [size, sides[1]]
            } else {
                [sides[0], size]
            }
        };
        saw(node.get("first").expect("a first part"), part(first), ordered, cut);
        match (second, node.get("second").expect("a second part, or null")) {
            (None, Value::Null) => {}
            (Some(size), second) => saw(second, part(size), ordered, cut),
            (None, second) => panic!("the blade leaves nothing for {second}"),
        }
    } else if let Some(Value::Text(name)) = node.get("piece") {
        ordered.expect(name, node.get("turned") == Some(&Value::Truth(true)), sides);
        *cut.entry(name.clone()).or_default() += 1;
    } else {
        assert_eq!(node.get("waste"), Some(&Value::Truth(true)));
    }
}

fn sides(text: &str) -> [i64; 2] {
    let (length, width) = text.trim().split_once(" x ").unwrap_or_else(|| panic!("{text} is no size"));
    [thousandths(length), thousandths(width)]
}

/// A board of the list: the sides of the parts that wait for a cut, by its number, and what came off.
struct Sawn<'a> {
    ordered: &'a Ordered,
    waiting: BTreeMap<usize, [i64; 2]>,
    cut: BTreeMap<String, usize>,
}

impl Sawn<'_> {
    fn part(&mut self, words: &str, sides_now: [i64; 2]) {
        let (size, becomes) = words.split_once(": ").expect("a size and what it becomes");
        assert_eq!(sides(size), sides_now, "{words}");
        if let Some(number) = becomes.strip_prefix("cut ").and_then(|number| number.parse().ok()) {
            self.waiting.insert(number, sides_now);
        } else if becomes != "rest" {
            let (name, turned) =
                becomes.strip_suffix(" turned").map_or((becomes, false), |name| (name, true));
            self.ordered.expect(name, turned, sides_now);
            *self.cut.entry(name.to_string()).or_default() += 1;
        }
    }

    fn row(&mut self, row: &str) {
        let cells: Vec<&str> = row.split("  ").map(str::trim).filter(|cell| !cell.is_empty()).collect();
        let [number, of, at, first, second] = cells[..] else { panic!("{row}") };
        let now = self.waiting.remove(&number.parse().expect("a number")).expect("a part that waits");
        assert_eq!(sides(of), now, "{row}");
        let (side, at) = at.split_once(" at ").expect("a side and a setting");
        let axis = usize::from(side == "width");
        let (size, rest) = self.ordered.parts(now[axis], thousandths(at));
        let part = |size: i64| {
            if axis == 0 {
                [size, now[1]]
            } else {
                [now[0], size]
            }
        };
        self.part(first, part(size));
        match rest {
            Some(rest) => self.part(second, part(rest)),
            None => assert_eq!(second, "nothing", "{row}"),
        }
    }
}

/// Follows the list of every board.
pub fn from_list(summary: &str, ordered: &Ordered) -> Cut {
    let mut boards = Vec::new();
    let blocks =
        summary.split("\n\n").filter(|block| block.starts_with("board ") || block.starts_with("offcut "));
    for block in blocks {
        let (head, rest) = block.split_once('\n').unwrap_or((block, ""));
        let size = head.split_once(", ").expect("a size").1.trim_end_matches(" mm");
        let mut sawn = Sawn { ordered, waiting: BTreeMap::from([(1, sides(size))]), cut: BTreeMap::new() };
        for line in rest.lines() {
            if let Some(whole) = line.strip_prefix("no cuts, ") {
                sawn.waiting.clear();
                sawn.part(whole, sides(size));
            } else if line.starts_with(' ') {
                sawn.row(line);
            }
        }
        assert!(sawn.waiting.is_empty(), "{block}");
        boards.push(sawn.cut);
    }
    ordered.keeps(&boards);
    boards
}
