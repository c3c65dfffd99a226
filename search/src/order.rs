// An order: the stock of boards, the saw and the panels, in millimetres to a thousandth.
use crate::layout::size;
use crate::millimetres::Millimetres;
use crate::plan::{lying, Sides};
use std::collections::HashSet;
use std::fmt;

/// The most sizes of panels. A job has 64 kinds: of more sizes those of the greatest area bound the boards.
pub const MOST_SIZES: usize = 1_000;

/// The most panels in all.
pub const MOST_PANELS: u32 = 20_000;

/// The widest kerf, as the planner's true sizes have it.
pub const MOST_KERF: Millimetres = Millimetres::of_thousandths(1_000_000);

/// The most stages that an order may allow.
pub const MOST_STAGES: u32 = 8;

/// A panel of the order, of which `count` copies are wanted. Without a price its area counts.
#[derive(Clone, Debug, PartialEq, Eq)]
pub struct Panel {
    pub name: String,
    pub sides: [Millimetres; 2],
    pub count: u32,
    pub price: Option<u32>,
    /// Whether it may be turned by a quarter; a panel with a grain may not.
    pub turns: bool,
}

/// Boards of one size in the stock.
#[derive(Clone, Debug, PartialEq, Eq)]
pub struct Plate {
    pub sides: [Millimetres; 2],
    /// How many there are; none: as many as are needed.
    pub count: Option<u32>,
    pub cost: u32,
    /// An offcut of an earlier order, which is used first and costs nothing.
    pub offcut: bool,
}

/// What is to be cut, from what, by which saw.
#[derive(Clone, Debug, Default, PartialEq, Eq)]
pub struct Order {
    pub plates: Vec<Plate>,
    /// What is taken off each raw edge of a plate first, the blade included.
    pub trim: Millimetres,
    /// The most stages of sawing.
    pub stages: Option<u32>,
    pub kerf: Millimetres,
    pub panels: Vec<Panel>,
    /// What was read otherwise than somebody might think. The search does not look at it.
    pub notices: Vec<String>,
}

/// Why an order cannot be planned.
#[derive(Clone, Debug, PartialEq, Eq)]
#[non_exhaustive]
pub enum OrderFault {
    /// There is no plate.
    NoPlate,
    /// A side of the plate of this line is 0 or too long, or it costs nothing and is no offcut.
    Plate(usize),
    /// The kerf is wider than the planner takes.
    Kerf(Millimetres),
    /// The trim is no wider than the kerf.
    Trim(Millimetres),
    /// The limit on stages is outside 1 to 8.
    Stages(u32),
    /// The panel of this line fits no plate in any way in which it may lie, or a side of it is 0.
    Panel(usize),
    /// There are too many sizes of panels.
    Sizes(usize),
    /// There are too many panels.
    Panels(u64),
}

impl Plate {
    /// A plate of which there are as many as are needed, each for a cost of 1.
    pub fn new(length: Millimetres, width: Millimetres) -> Plate {
        Plate { sides: [length, width], count: None, cost: 1, offcut: false }
    }

    pub fn sides(&self) -> Sides {
        self.sides.map(Millimetres::thousandths)
    }

    fn is_sound(&self) -> bool {
        let read = |side: Millimetres| Millimetres::within(side.thousandths().into()).is_some();
        let sides = self.sides.iter().all(|side| *side > Millimetres::ZERO && read(*side));
        sides && (self.offcut || self.cost > 0)
    }
}

impl Panel {
    /// A panel that keeps its grain and counts by its area.
    pub fn new(name: impl Into<String>, length: Millimetres, width: Millimetres, count: u32) -> Panel {
        Panel { name: name.into(), sides: [length, width], count, price: None, turns: false }
    }

    pub fn sides(&self) -> Sides {
        self.sides.map(Millimetres::thousandths)
    }

    /// In square thousandths of a millimetre.
    pub fn area(&self) -> u64 {
        let [length, width] = self.sides();
        u64::from(length) * u64::from(width)
    }

    /// Whether it fits a part of these sides in a way in which it may lie.
    pub fn fits(&self, part: Sides) -> bool {
        let ways = [false, true].into_iter().filter(|turned| !turned || self.turns);
        let mut lies = ways.map(|turned| lying(self.sides(), turned));
        lies.any(|own| own[0] <= part[0] && own[1] <= part[1])
    }
}

impl Order {
    pub fn kerf(&self) -> u32 {
        self.kerf.thousandths()
    }

    /// The part of a plate within its trimmed edges. An offcut has no raw edges.
    pub fn usable(&self, plate: &Plate) -> Sides {
        let off = if plate.offcut { 0 } else { self.trim.thousandths().saturating_mul(2) };
        plate.sides().map(|side| side.saturating_sub(off))
    }

    /// The sides of every panel, for the saw.
    pub fn panel_sides(&self) -> Vec<Sides> {
        self.panels.iter().map(Panel::sides).collect()
    }

    /// Whether worth is counted in prices; else it is area.
    pub fn is_priced(&self) -> bool {
        self.panels.iter().any(|panel| panel.price.is_some())
    }

    /// Whether it can be planned; the first fault where it cannot.
    pub fn check(&self) -> Result<(), OrderFault> {
        let fails = |fault: OrderFault| Err(fault);
        if self.plates.is_empty() {
            return fails(OrderFault::NoPlate);
        }
        if let Some(plate) = self.plates.iter().position(|plate| !plate.is_sound()) {
            return fails(OrderFault::Plate(plate));
        }
        if self.kerf > MOST_KERF {
            return fails(OrderFault::Kerf(self.kerf));
        }
        if self.trim > Millimetres::ZERO && self.trim <= self.kerf {
            return fails(OrderFault::Trim(self.trim));
        }
        if let Some(stages) = self.stages.filter(|stages| !(1..=MOST_STAGES).contains(stages)) {
            return fails(OrderFault::Stages(stages));
        }
        self.check_panels()
    }

    fn check_panels(&self) -> Result<(), OrderFault> {
        let usable: Vec<Sides> = self.plates.iter().map(|plate| self.usable(plate)).collect();
        let sound =
            |panel: &Panel| !panel.sides().contains(&0) && usable.iter().any(|part| panel.fits(*part));
        if let Some(panel) = self.panels.iter().position(|panel| !sound(panel)) {
            return Err(OrderFault::Panel(panel));
        }
        let wanted = self.panels.iter().filter(|panel| panel.count > 0);
        let sizes: HashSet<_> = wanted.map(|panel| (panel.sides, panel.price, panel.turns)).collect();
        if sizes.len() > MOST_SIZES {
            return Err(OrderFault::Sizes(sizes.len()));
        }
        let panels: u64 = self.panels.iter().map(|panel| u64::from(panel.count)).sum();
        if panels > MOST_PANELS.into() {
            return Err(OrderFault::Panels(panels));
        }
        Ok(())
    }
}

impl OrderFault {
    /// What is wrong, with the sizes of the order.
    pub fn in_order(&self, order: &Order) -> String {
        match *self {
            OrderFault::Plate(line) => format!("{self}: {}", size(order.plates[line].sides())),
            OrderFault::Panel(line) => {
                let panel = &order.panels[line];
                format!("{self}: {}, {}", panel.name, size(panel.sides()))
            }
            _ => self.to_string(),
        }
    }
}

impl fmt::Display for OrderFault {
    fn fmt(&self, f: &mut fmt::Formatter) -> fmt::Result {
        match self {
            OrderFault::NoPlate => write!(f, "the order has no plate"),
            OrderFault::Plate(line) => write!(f, "plate {line} has no size or no cost that can be planned"),
            OrderFault::Kerf(kerf) => {
                write!(f, "the kerf is {kerf} mm, and at most {MOST_KERF} mm is planned")
            }
            OrderFault::Trim(trim) => write!(f, "the trim of {trim} mm is no wider than the kerf"),
            OrderFault::Stages(stages) => write!(f, "{stages} stages are not 1 to {MOST_STAGES}"),
            OrderFault::Panel(line) => write!(f, "panel {line} fits no plate"),
            OrderFault::Sizes(sizes) => {
                write!(f, "{sizes} sizes of panels, and at most {MOST_SIZES} are planned")
            }
            OrderFault::Panels(panels) => write!(f, "{panels} panels, and at most {MOST_PANELS} are planned"),
        }
    }
}

impl std::error::Error for OrderFault {}
