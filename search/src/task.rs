// What is searched: kinds of panels, boards and the saw, all in thousandths of a millimetre. Panels of one size, price
// and grain are one kind.
use super::proof::{MOST_COPIES, MOST_KINDS};
use crate::order::{Order, Panel};
use crate::plan::{lying, Sides};
use planner::Choices;
use std::cmp::Reverse;

/// A kind of panel and the lines of the order that have it.
#[derive(Clone, Debug)]
pub struct Kind {
    pub sides: Sides,
    pub turns: bool,
    pub price: Option<u32>,
    pub count: u32,
    pub panels: Vec<usize>,
}

impl Kind {
    /// A square has no grain to keep.
    pub fn keeps_grain(&self) -> bool {
        !self.turns && self.sides[0] != self.sides[1]
    }
}

/// Boards of one size: the part of the plate that may be used.
#[derive(Clone, Copy, Debug, PartialEq, Eq)]
pub struct Stock {
    pub sides: Sides,
    pub count: Option<u32>,
    pub cost: u64,
}

#[derive(Clone, Debug)]
pub struct Task {
    pub kinds: Vec<Kind>,
    /// In the order of the plates.
    pub stock: Vec<Stock>,
    pub kerf: u32,
    pub stages: Option<u32>,
    /// What a copy of each kind is worth: its price, or its area in square thousandths of a millimetre.
    pub worths: Vec<u64>,
}

/// Units of a model that the smallest side of a panel has at least.
const UNITS: i64 = 2;

/// Where an order has prices, an area without one counts in square centimetres.
const SQUARE_CENTIMETRE: u64 = 100_000_000;

impl Task {
    pub fn new(order: &Order) -> Task {
        let mut kinds: Vec<Kind> = Vec::new();
        for (number, panel) in order.panels.iter().enumerate().filter(|(_, panel)| panel.count > 0) {
            let same = |kind: &&mut Kind| {
                (kind.sides, kind.turns, kind.price) == (panel.sides(), turns(panel), panel.price)
            };
            if let Some(kind) = kinds.iter_mut().find(same) {
                kind.count += panel.count;
                kind.panels.push(number);
            } else {
                let (sides, price, count) = (panel.sides(), panel.price, panel.count);
                kinds.push(Kind { sides, turns: turns(panel), price, count, panels: vec![number] });
            }
        }
        let stock = order.plates.iter().map(|plate| Stock {
            sides: order.usable(plate),
            count: plate.count,
            cost: if plate.offcut { 0 } else { plate.cost.into() },
        });
        let worths = kinds.iter().map(|kind| worth(kind, order.is_priced())).collect();
        Task { stock: stock.collect(), kerf: order.kerf(), stages: order.stages, worths, kinds }
    }

    /// The ways in which a kind may lie on a board.
    pub fn ways(&self, kind: usize, board: Sides) -> impl Iterator<Item = bool> + '_ {
        let Kind { sides, turns, .. } = self.kinds[kind];
        [false, true].into_iter().filter(move |turned| {
            let [length, width] = lying(sides, *turned);
            (!turned || turns) && length <= board[0] && width <= board[1]
        })
    }

    /// The sides of a kind as it lies, with the kerf added: sums of these need no care for the blade.
    pub fn wide(&self, kind: usize, turned: bool) -> [i32; 2] {
        lying(self.kinds[kind].sides, turned).map(|side| (side + self.kerf) as i32)
    }

    /// The sides of a board with the kerf added.
    pub fn room(&self, board: Sides) -> [i32; 2] {
        board.map(|side| (side + self.kerf) as i32)
    }

    /// The lines of the stock that have boards for panels of the order.
    pub fn usable_stock(&self) -> impl Iterator<Item = usize> + '_ {
        (0..self.stock.len()).filter(|stock| {
            let Stock { sides, count, .. } = self.stock[*stock];
            count != Some(0) && (0..self.kinds.len()).any(|kind| self.ways(kind, sides).next().is_some())
        })
    }

    /// Whether a model of this side is too coarse for a board: its smallest panel has hardly some units.
    pub fn is_coarse(&self, board: Sides, side: i32) -> bool {
        let wide = (0..self.kinds.len()).flat_map(|kind| self.wide(kind, false));
        let (least, room) = (wide.min().unwrap_or(i32::MAX), self.room(board));
        i64::from(side) * i64::from(least) < UNITS * i64::from(room[0].max(room[1]))
    }

    /// Whether panels may be turned, and whether some may not.
    pub fn choices(&self) -> Choices {
        let turning = self.kinds.iter().any(|kind| kind.turns);
        let grain = turning && self.kinds.iter().any(Kind::keeps_grain);
        Choices { turning, grain, ..Choices::default() }
    }

    pub fn counts(&self) -> Vec<u32> {
        self.kinds.iter().map(|kind| kind.count).collect()
    }

    /// The copies that bound the boards of an order. A block takes so many kinds: of more, those of the least area are left
    /// out. What the others need, the whole order needs.
    pub fn bounded_counts(&self) -> Vec<u32> {
        let area = |kind: &usize| {
            let Kind { sides: [length, width], count, .. } = self.kinds[*kind];
            u128::from(length) * u128::from(width) * u128::from(count)
        };
        let mut kinds: Vec<usize> = (0..self.kinds.len()).collect();
        kinds.sort_by_key(|kind| Reverse(area(kind)));
        let (mut counts, mut room) = (vec![0; kinds.len()], MOST_KINDS);
        for kind in kinds {
            let entries = self.kinds[kind].count.div_ceil(MOST_COPIES) as usize;
            if entries <= room {
                room -= entries;
                counts[kind] = self.kinds[kind].count;
            }
        }
        counts
    }
}

/// A square lies in one way only.
fn turns(panel: &Panel) -> bool {
    panel.turns && panel.sides[0] != panel.sides[1]
}

fn worth(kind: &Kind, priced: bool) -> u64 {
    let area = u64::from(kind.sides[0]) * u64::from(kind.sides[1]);
    match kind.price {
        Some(price) => price.into(),
        None if priced => area.div_ceil(SQUARE_CENTIMETRE),
        None => area,
    }
}
