// A drawing replayed from its own numbers: every cut spans what it divides, and the parts that are left are panels, in
// exactly their size, and rests. All numbers are ten-thousandths of a millimetre.
use crate::replay::{Cut, Ordered};
use crate::scratch::{program, Scratch};
use crate::xml::{elements, Element};
use std::collections::BTreeMap;

#[derive(Clone, Copy, Debug, PartialEq, Eq)]
pub struct Area {
    pub x: [i64; 2],
    pub y: [i64; 2],
}

/// What a drawing shows on the plate.
pub struct Shown {
    pub plate: Area,
    pub kerf: i64,
    pub pieces: Vec<(String, Area)>,
    pub rests: Vec<Area>,
    cuts: Vec<Area>,
}

impl Area {
    fn size(&self) -> i64 {
        (self.x[1] - self.x[0]) * (self.y[1] - self.y[0])
    }

    fn holds(&self, other: &Area) -> bool {
        let within = |a: [i64; 2], b: [i64; 2]| a[0] <= b[0] && b[0] < b[1] && b[1] <= a[1];
        within(self.x, other.x) && within(self.y, other.y)
    }

    fn meets(&self, other: &Area) -> bool {
        let meet = |a: [i64; 2], b: [i64; 2]| a[0] < b[1] && b[0] < a[1];
        meet(self.x, other.x) && meet(self.y, other.y)
    }

    pub fn sides(&self) -> [i64; 2] {
        [self.x[1] - self.x[0], self.y[1] - self.y[0]]
    }
}

/// A number with up to four decimals, exactly.
pub fn number(text: &str) -> i64 {
    let (whole, decimals) = text.split_once('.').unwrap_or((text, ""));
    assert!(decimals.len() <= 4, "{text}");
    format!("{whole}{decimals:0<4}").parse().expect("a number")
}

fn attribute(element: &Element, name: &str) -> i64 {
    number(element.get(name).unwrap_or_else(|| panic!("{name} of {element:?}")))
}

fn area(rect: &Element) -> Area {
    let [x, y, length, width] = ["x", "y", "width", "height"].map(|name| attribute(rect, name));
    Area { x: [x, x + length], y: [y, y + width] }
}

/// The boards of drawings.
pub fn shown(drawings: &[String]) -> Vec<Shown> {
    drawings.iter().flat_map(|svg| boards(svg)).collect()
}

fn boards(svg: &str) -> Vec<Shown> {
    let elements = elements(svg).unwrap_or_else(|wrong| panic!("{wrong}\n{svg}"));
    let boards = elements.split(|element| element.get("class") == Some("board"));
    let kerfs = elements
        .iter()
        .filter(|element| element.get("class") == Some("board"))
        .map(|e| attribute(e, "data-kerf"));
    boards.skip(1).zip(kerfs).map(|(elements, kerf)| board(elements, kerf)).collect()
}

fn board(elements: &[Element], kerf: i64) -> Shown {
    let class = |class| elements.iter().filter(move |element| element.get("class") == Some(class));
    let named = |rect: &Element| (rect.get("data-name").expect("a name").to_string(), area(rect));
    let plates: Vec<_> = class("plate").map(area).collect();
    assert_eq!(plates.len(), 1);
    Shown {
        plate: plates[0],
        kerf,
        pieces: class("piece").map(named).collect(),
        rests: class("rest").map(area).collect(),
        cuts: class("cut").map(area).collect(),
    }
}

/// Replays every board that is drawn and gives the copies on each.
pub fn replayed(drawings: &[String], ordered: &Ordered) -> Cut {
    let copies = |shown: &Shown| {
        shown.replay();
        let mut copies = BTreeMap::new();
        for (name, area) in &shown.pieces {
            let sides = area.sides().map(|side| side / 10);
            let (length, width, _) = ordered.panels[name];
            ordered.expect(name, sides != [length, width], sides);
            *copies.entry(name.clone()).or_default() += 1;
        }
        copies
    };
    let cut = shown(drawings).iter().map(copies).collect();
    ordered.keeps(&cut);
    cut
}

impl Shown {
    /// Makes the cuts one after another and expects in every part what the drawing shows there.
    pub fn replay(&self) {
        let mut parts = vec![self.plate];
        for cut in &self.cuts {
            let divided = |part: &Area| {
                let across = part.x == cut.x && part.y[0] < cut.y[0] && cut.y[1] <= part.y[1];
                let along = part.y == cut.y && part.x[0] < cut.x[0] && cut.x[1] <= part.x[1];
                across || along
            };
            let index = parts.iter().position(divided);
            let part = parts.swap_remove(index.unwrap_or_else(|| panic!("{cut:?} divides no part")));
            let [mut first, mut second] = [part; 2];
            let axis = if part.y == cut.y && part.x[0] < cut.x[0] { 0 } else { 1 };
            let taken = if axis == 0 {
                (first.x[1], second.x[0]) = (cut.x[0], cut.x[1]);
                cut.x[1] - cut.x[0]
            } else {
                (first.y[1], second.y[0]) = (cut.y[0], cut.y[1]);
                cut.y[1] - cut.y[0]
            };
            parts.push(first);
            if second.sides()[axis] > 0 {
                assert_eq!(taken, self.kerf, "{cut:?}");
                parts.push(second);
            } else {
                assert!(taken <= self.kerf, "{cut:?}");
            }
        }
        for part in &parts {
            assert!(
                self.rests.contains(part) || self.pieces.iter().any(|(_, piece)| piece == part),
                "{part:?}"
            );
        }
        assert_eq!(parts.len(), self.pieces.len() + self.rests.len());
        self.lies_apart();
    }

    /// No two of pieces, rests and cuts overlap, and all lie on the plate.
    fn lies_apart(&self) {
        let pieces = self.pieces.iter().map(|(_, area)| *area);
        let cuts = self.cuts.iter().filter(|_| self.kerf > 0).copied();
        let all: Vec<_> = pieces.chain(self.rests.iter().copied()).chain(cuts).collect();
        for (index, one) in all.iter().enumerate() {
            assert!(self.plate.holds(one), "{one:?} leaves the plate");
            for other in &all[..index] {
                assert!(!one.meets(other), "{one:?} overlaps {other:?}");
            }
        }
        assert_eq!(all.iter().map(Area::size).sum::<i64>(), self.plate.size());
    }
}

#[test]
fn drawings_can_be_cut() {
    let scratch = Scratch::new("drawings");
    let heading = "name, length, width, count\n";
    let panels = "A & B, 100, 50, 2\n<C>, 70.5, 30, 3\n\"D \"\"x\"\"\", 20, 20, 9\n棚板, 95, 8, 2\n";
    for (index, head) in [
        "plate, 300 x 200\nsaw, kerf 3.2\n",
        "plate, 300 x 200\nturning, yes\n",
        "plate, 100.7 x 200.7\nsaw, kerf 0.3\nturning, yes\n",
        "plate, 300 x 1000\nsaw, kerf 4\n",
    ]
    .into_iter()
    .enumerate()
    {
        let order = scratch.write(&format!("{index}.csv"), format!("{head}{heading}{panels}"));
        scratch.plan(&order, &["--seconds", "0.3"]).expect("an order without fault");
        let shown = shown(&scratch.drawings());
        shown.iter().for_each(Shown::replay);
        assert!(shown.iter().flat_map(|board| &board.pieces).any(|(name, _)| name == "A & B"));
    }
}

/// Plans an order within two seconds, by the program, and replays its drawing.
fn planned_in_time(name: &str, head: &str, panels: &str) -> Vec<Shown> {
    let scratch = Scratch::new(name);
    let order = scratch.write("order.csv", format!("{head}name, length, width, count\n{panels}"));
    program(&[&order, "--svg", &scratch.path("plan.svg"), "--seconds", "2"]);
    let shown = shown(&scratch.drawings());
    shown.iter().for_each(Shown::replay);
    shown
}

#[test]
fn a_drawing_of_64_panels_is_replayed() {
    let panel = |i: usize| format!("panel with a long name {i}, {}, {}, 2\n", 100 + 7 * i, 50 + 5 * i);
    let panels: String = (0..64).map(panel).collect();
    let shown = planned_in_time("many", "plate, 2440 x 1220\nsaw, kerf 3\n", &panels);
    assert_eq!(shown.iter().map(|board| board.pieces.len()).sum::<usize>(), 128);
}

#[test]
fn boards_of_very_many_panels_are_planned() {
    let shown = planned_in_time("small", "plate, 300 x 300\nsaw, kerf 0\n", "a, 5, 5, 900\nb, 7, 4, 255\n");
    assert_eq!(shown.iter().map(|board| board.pieces.len()).sum::<usize>(), 1155);
}
