//! Refusals as reasons and in words: what planner.h says of each number, and what its place is.
//! Kinds and nodes are numbered from 0.

use crate::answers::{Refusal, ANSWER_TOO_SHORT, UNKNOWN_CHOICE};
use crate::tree::Direction;
use std::error::Error;
use std::fmt;

/// What the place of a refusal counts.
#[derive(Clone, Copy, PartialEq, Eq)]
enum Place {
    Nothing,
    Kind,
    /// 0 for the plate or the kerf, or 1 more than a kind.
    PlateOrKind,
    Node,
    Plate,
    Direction,
    Words,
    Nodes,
}

/// Makes the reasons from one table: number, name, what the place counts, and the words.
macro_rules! reasons {
    ($($number:tt $name:ident $place:ident $words:literal;)*) => {
        /// Why a call refuses. Later versions may have more reasons.
        #[derive(Clone, Copy, Debug, PartialEq, Eq, Hash)]
        #[non_exhaustive]
        pub enum Reason {
            $(#[doc = concat!($words, ".")] $name,)*
            /// a number that this version does not know.
            Unknown,
        }

        impl Reason {
            /// Every reason that has a number.
            pub const ALL: &'static [Reason] = &[$(Reason::$name),*];

            /// The reason of a number.
            pub fn of(number: u32) -> Reason {
                match number {
                    $($number => Reason::$name,)*
                    _ => Reason::Unknown,
                }
            }

            /// The number in planner.h.
            pub fn number(self) -> Option<u32> {
                match self {
                    $(Reason::$name => Some($number),)*
                    Reason::Unknown => None,
                }
            }

            /// What the number says.
            pub fn words(self) -> &'static str {
                match self {
                    $(Reason::$name => $words,)*
                    Reason::Unknown => "the number has no words",
                }
            }

            /// What the place counts.
            fn place(self) -> Place {
                match self {
                    $(Reason::$name => Place::$place,)*
                    Reason::Unknown => Place::Nothing,
                }
            }
        }
    };
}

reasons! {
    1 JobHeader Nothing "the job block is too short for its header";
    2 PlateSide Plate "a side of the plate is outside 1 to 1,000 units";
    3 NumberOfKinds Nothing "the number of kinds is outside 1 to 64";
    4 JobBytes Nothing "the job block has not the bytes that its header says";
    5 PieceSide Kind "a side of the piece is outside 1 to 1,000 units";
    6 Price Kind "the price is above 1,000,000";
    7 Demand Kind "the demand is above 255";
    8 Weights Nothing "there is not one weight a kind";
    9 Capacity Nothing "a capacity is above 4,095";
    10 PlanArrays Nothing "the plan's arrays differ in length, or its block has not the bytes that it says";
    11 PlanNodes Nothing "the plan has no node, or more than 4,095";
    12 NodeKind Node "no node has this kind, or the piece is turned and pieces may not be";
    13 PieceNumber Node "the job has no piece of this number";
    14 CutPosition Node "the cut leaves a part below one unit, or waste has an operand";
    15 PieceFit Node "the piece does not fit its rectangle";
    16 Copy Node "this copy passes the demand";
    17 PlanEnds Node "the plan ends before its tree";
    18 NodesLeft Node "nodes are left over after the tree";
    19 List Nothing "a list of positions is too short";
    20 Table Words "the table is too short";
    21 PlanRoom Nodes "the plan needs more nodes than there is room for";
    22 StageLimit Nothing "the limit on stages is outside 1 to 8";
    23 Stages Node "the cut passes the limit on stages";
    24 SecondWeights Nothing "there is not one second weight a kind";
    25 BothCapacities Nothing "both capacities, each plus 1, multiply to above 65,536";
    26 IdleCut Node "the cut is idle: neither of its parts holds a piece";
    27 Kerf Nothing "the kerf is above 20 units";
    28 Rack Nothing "the rack has not 1 to 16 plates, or not one entry a plate in each array";
    29 SharedDemand Plate "copies over the plans so far pass a demand";
    30 States Nothing "the demands, each plus 1, multiply to above 4,096";
    31 SizesBytes Nothing "the sizes block has not three sizes and two a kind";
    32 TrueSize PlateOrKind "a true side is outside 1 to 100,000,000, or the true kerf is above 1,000,000";
    33 Model Direction "the model does not stand for the true sizes";
    34 TruePlate Direction "the plan does not fit the plate at the true sizes";
    35 GrainByte Kind "the grain byte is above 1";
    36 Grain Node "the piece is turned and its kind keeps its grain";
    37 Multipliers Nothing "there is not one multiplier a kind";
    38 Multiplier Kind "the multiplier is above 1,000,000";
    ANSWER_TOO_SHORT Answer Nothing "the answer has too few words";
    UNKNOWN_CHOICE Choice Nothing "a choice has no meaning";
}

impl Refusal {
    /// Why the call refused.
    ///
    /// ```
    /// use planner::{Choices, Error, Job, Kind, Planner, Reason, Tree};
    ///
    /// let kind = Kind { length: 2, width: 3, price: 7, demand: 1, grain: false };
    /// let job = Job { length: 5, width: 3, kerf: 0, kinds: vec![kind] };
    /// let planner = Planner::new(&job, Choices::default(), 0);
    /// let turned = Tree::Piece { kind: 0, turned: true }.plan();
    /// match planner.check(&turned) {
    ///     Err(Error::Refused(refusal)) => {
    ///         assert_eq!(refusal.reason(), Reason::NodeKind);
    ///         assert_eq!(refusal.node(), Some(0));
    ///     }
    ///     other => panic!("{other:?}"),
    /// }
    /// ```
    pub fn reason(&self) -> Reason {
        Reason::of(self.number)
    }

    /// What the number says.
    pub fn words(&self) -> &'static str {
        self.reason().words()
    }

    /// The place, where it counts this.
    fn counts(&self, place: Place) -> Option<u64> {
        (self.reason().place() == place).then_some(self.place)
    }

    /// The kind of piece that is refused, if one is. Of true sizes place 0 is the plate or the kerf.
    pub fn kind(&self) -> Option<u64> {
        let of_sizes = self.counts(Place::PlateOrKind).and_then(|place| place.checked_sub(1));
        self.counts(Place::Kind).or(of_sizes)
    }

    /// The node that is refused, if one is.
    pub fn node(&self) -> Option<u64> {
        self.counts(Place::Node)
    }

    /// The plate that is refused, if one is: of a job alone plate 0, of a rack any.
    pub fn plate(&self) -> Option<u64> {
        self.counts(Place::Plate)
    }

    /// The direction along which the true sizes are refused, if they are.
    pub fn direction(&self) -> Option<Direction> {
        let place = self.counts(Place::Direction)?;
        Some(if place == 0 { Direction::Length } else { Direction::Width })
    }
}

impl fmt::Display for Refusal {
    fn fmt(&self, f: &mut fmt::Formatter) -> fmt::Result {
        write!(f, "refusal {}", self.number)?;
        let places = [("kind", self.kind()), ("node", self.node()), ("plate", self.plate())];
        for (sort, place) in places {
            place.map_or(Ok(()), |place| write!(f, " at {sort} {place}"))?;
        }
        match self.direction() {
            Some(Direction::Length) => write!(f, " along the length")?,
            Some(Direction::Width) => write!(f, " along the width")?,
            None => {}
        }
        match self.reason().place() {
            Place::Words => write!(f, ", {} words are needed", self.place)?,
            Place::Nodes => write!(f, ", {} nodes are needed", self.place)?,
            _ => {}
        }
        write!(f, ": {}", self.words())
    }
}

impl Error for Refusal {}
