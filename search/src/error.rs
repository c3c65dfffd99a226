// Why there is no plan, or why a plan that somebody has drawn is not right.
use crate::layout::{size, Misfit};
use crate::order::OrderFault;
use crate::plan::Sides;
use std::fmt;

#[derive(Clone, Debug, PartialEq, Eq)]
#[non_exhaustive]
pub enum Error {
    /// The order cannot be planned.
    Order { fault: OrderFault, words: String },
    /// A proved call refused what the search has found.
    Call(planner::Error),
    /// The saw cannot do what a plan says; `words` name the panel.
    Misfit { misfit: Misfit, words: String },
    /// A plan is for a board that the order has not.
    NoPlate(usize),
    /// A plan has a panel that the order has not.
    NoPanel(usize),
    /// A plan has more stages than the order allows.
    Stages(u32),
    /// A panel is turned against its grain.
    Turned { panel: String },
    /// A panel lies on a raw edge.
    RawEdge { panel: String },
    /// A panel is cut more often than it is ordered.
    Copies { panel: String, cut: u32, ordered: u32 },
    /// More plates are used than there are.
    Plates { sides: Sides, used: u32, count: u32 },
}

impl fmt::Display for Error {
    fn fmt(&self, f: &mut fmt::Formatter) -> fmt::Result {
        match self {
            Error::Order { words, .. } | Error::Misfit { words, .. } => write!(f, "{words}"),
            Error::Call(error) => write!(f, "the plan was found and does not pass: {error}"),
            Error::NoPlate(plate) => write!(f, "the order has no plate {plate}"),
            Error::NoPanel(panel) => write!(f, "the order has no panel {panel}"),
            Error::Stages(limit) => write!(f, "a plan has more stages than {limit}"),
            Error::Turned { panel } => write!(f, "{panel} is turned and may not be"),
            Error::RawEdge { panel } => write!(f, "{panel} lies on a raw edge"),
            Error::Copies { panel, cut, ordered } => {
                write!(f, "{panel} is cut {cut} times, and {ordered} are ordered")
            }
            Error::Plates { sides, used, count } => {
                write!(f, "{used} plates of {} are used, and there are {count}", size(*sides))
            }
        }
    }
}

impl std::error::Error for Error {}
