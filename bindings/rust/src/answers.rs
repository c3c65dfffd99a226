//! The choices of the calls, what they answer and borrow, and how an answer is laid out in words.
//! They stand apart from the calls, so that other implementations of the calls can share them.

/// The choice that a piece may be turned, unless its kind keeps its grain.
pub const TURNING: u32 = 1;

/// The choice that the capacity counts every demand in full.
pub const FULL_DEMAND: u32 = 2;

/// The choice that the job block is the old one, which has no kerf.
pub const OLD_BLOCK: u32 = 4;

/// The choice that the job block says of each kind whether it keeps its grain.
pub const GRAIN: u32 = 8;

/// Every choice.
pub const CHOICES: u32 = TURNING | FULL_DEMAND | OLD_BLOCK | GRAIN;

/// Words of a report.
pub const REPORT_WORDS: usize = 69;

/// Words of a staged report.
pub const STAGED_REPORT_WORDS: usize = 70;

/// Words of a report of the saw.
pub const SAW_WORDS: usize = 68;

/// Words of found weights.
pub const FOUND_WORDS: usize = 66;

/// Answer of a call whose `answer` slice is too short.
pub const ANSWER_TOO_SHORT: u32 = 100;

/// Answer of a call whose choices have a bit without a meaning.
pub const UNKNOWN_CHOICE: u32 = 101;

/// A refusal: its number and its place.
#[derive(Clone, Copy, Debug, PartialEq, Eq)]
pub struct Refusal {
    /// The number, which [`Refusal::words`] says in words.
    pub number: u32,
    /// The kind, node or plate that is refused, or the words or nodes that are needed, or 0.
    pub place: u64,
}

/// What a passed plan reports. Copies are 0 past the job's kinds.
#[derive(Clone, Copy, Debug, PartialEq, Eq)]
pub struct Report {
    /// What the pieces earn.
    pub profit: u64,
    /// The area of all pieces.
    pub pieces: u64,
    /// The area of all waste.
    pub waste: u64,
    /// The area cut off beside pieces.
    pub trim: u64,
    /// The copies of each kind.
    pub copies: [u64; 64],
    /// The area that the blade took.
    pub sawdust: u64,
}

/// What a passed plan reports, and its stages.
#[derive(Clone, Copy, Debug, PartialEq, Eq)]
pub struct StagedReport {
    /// What it reports without a limit on stages.
    pub report: Report,
    /// The stages of the plan.
    pub stages: u64,
}

/// What the saw reports of a passed plan: no profit.
#[derive(Clone, Copy, Debug, PartialEq, Eq)]
pub struct SawReport {
    /// The area of all pieces.
    pub pieces: u64,
    /// The area of all waste.
    pub waste: u64,
    /// The area cut off beside pieces.
    pub trim: u64,
    /// The copies of each kind.
    pub copies: [u64; 64],
    /// The area that the blade took.
    pub sawdust: u64,
}

/// A part of an array: its first entry and the number of its entries.
#[derive(Clone, Copy, Debug, PartialEq, Eq)]
pub struct Part {
    /// The place of its first entry.
    pub first: u64,
    /// How many entries it has.
    pub entries: u64,
}

/// The bound, the capacity and the numbers of normal lengths and widths.
#[derive(Clone, Copy, Debug, PartialEq, Eq)]
pub struct Bound {
    /// No plan within the demands, and within the limit on stages where there is one, earns more.
    pub bound: u64,
    /// The capacity of the plate under the weights.
    pub capacity: u64,
    /// How many normal lengths there are.
    pub lengths: u64,
    /// How many normal widths there are.
    pub widths: u64,
}

/// The bound, both capacities and the numbers of normal lengths and widths.
#[derive(Clone, Copy, Debug, PartialEq, Eq)]
pub struct BoundTwo {
    /// No plan within the demands earns more.
    pub bound: u64,
    /// The capacities under the first weights and under the second.
    pub capacities: [u64; 2],
    /// How many normal lengths there are.
    pub lengths: u64,
    /// How many normal widths there are.
    pub widths: u64,
}

/// The bound and the number of nodes of the plan that was written behind it.
#[derive(Clone, Copy, Debug, PartialEq, Eq)]
pub struct Written {
    /// The bound that the plan earns.
    pub bound: Bound,
    /// How many nodes the plan has.
    pub nodes: u64,
}

/// The optimum, the number of states, the numbers of normal lengths and widths, and the number of nodes
/// of the plan that was written.
#[derive(Clone, Copy, Debug, PartialEq, Eq)]
pub struct Exact {
    /// The most that a plan within the demands earns.
    pub optimum: u64,
    /// In how many ways copies can be taken within the demands.
    pub states: u64,
    /// How many normal lengths there are.
    pub lengths: u64,
    /// How many normal widths there are.
    pub widths: u64,
    /// How many nodes the plan has.
    pub nodes: u64,
}

/// The number of nodes of a neat plan.
#[derive(Clone, Copy, Debug, PartialEq, Eq)]
pub struct Neat {
    /// How many nodes the plan has.
    pub nodes: u64,
}

/// The least bound that the rounds met, how many were run, and the weights that first gave it, 0 past
/// the job's kinds.
#[derive(Clone, Copy, Debug, PartialEq, Eq)]
pub struct Found {
    /// The least bound.
    pub bound: u64,
    /// How many rounds were run.
    pub rounds: u64,
    /// The weights that first gave the bound.
    pub weights: [u64; 64],
}

/// Every plan of a rack passed, or a model did: no word is answered.
#[derive(Clone, Copy, Debug, PartialEq, Eq)]
pub struct Passed;

/// Bound less profit (0: the plan is best), with both.
#[derive(Clone, Copy, Debug, PartialEq, Eq)]
pub struct Certificate {
    /// How much more a plan earns at most; 0 where this one is best.
    pub gap: u64,
    /// The bound under the weights.
    pub bound: u64,
    /// What the plan earns.
    pub profit: u64,
}

/// The number of nodes of a plan at true sizes, and what it uses of the plate: nothing without a piece.
#[derive(Clone, Copy, Debug, PartialEq, Eq)]
pub struct Fitted {
    /// How many nodes the plan has.
    pub nodes: u64,
    /// The used length.
    pub length: u64,
    /// The used width.
    pub width: u64,
}

/// How many plates a whole order needs, and what that follows from.
#[derive(Clone, Copy, Debug, PartialEq, Eq)]
pub struct PlatesNeeded {
    /// No fewer plates hold the order; `u64::MAX` where no number of them does.
    pub plates: u64,
    /// No plan within the demands earns more on one plate.
    pub bound: u64,
    /// What the order is worth: the sum of demand times price.
    pub worth: u64,
}

/// The bound with multipliers in place of demands, and that of the lowered job.
#[derive(Clone, Copy, Debug, PartialEq, Eq)]
pub struct Lagrangian {
    /// No plan within the demands earns more.
    pub bound: u64,
    /// The bound of the job whose prices are lowered by the multipliers.
    pub lowered: Bound,
}

/// The lent lists and table.
pub struct Storage<'a> {
    /// The normal lengths.
    pub lengths: &'a mut [u16],
    /// The normal widths.
    pub widths: &'a mut [u16],
    /// The figures.
    pub table: &'a mut [u64],
}

/// The lent arrays that a plan is written to.
pub struct PlanArraysOf<'a, P> {
    /// The kind of each node.
    pub kinds: &'a mut [u8],
    /// The operand of each node.
    pub operands: &'a mut [P],
}

/// The lent arrays of a plan in the units of a job.
pub type PlanArrays<'a> = PlanArraysOf<'a, u16>;

/// The lent arrays of a plan at true sizes.
pub type TruePlanArrays<'a> = PlanArraysOf<'a, u32>;

/// The lent rack: of each plate its length, its width and the profit that its plan brought.
pub struct Rack<'a> {
    /// The length of each plate.
    pub lengths: &'a [u16],
    /// The width of each plate.
    pub widths: &'a [u16],
    /// What the plan of each plate brought.
    pub profits: &'a mut [u64],
}

impl Storage<'_> {
    /// The same storage for a call in between.
    pub fn again(&mut self) -> Storage<'_> {
        Storage { lengths: self.lengths, widths: self.widths, table: self.table }
    }
}

impl<P> PlanArraysOf<'_, P> {
    /// The same arrays for a call in between.
    pub fn again(&mut self) -> PlanArraysOf<'_, P> {
        PlanArraysOf { kinds: self.kinds, operands: self.operands }
    }
}

/// An answer as the words of planner.h.
pub trait Words<const N: usize>: Sized {
    /// The words of an answer.
    fn to_words(&self) -> [u64; N];
    /// The answer of words.
    fn from_words(words: [u64; N]) -> Self;
}

impl Words<REPORT_WORDS> for Report {
    fn to_words(&self) -> [u64; REPORT_WORDS] {
        let mut words = [0; REPORT_WORDS];
        words[..4].copy_from_slice(&[self.profit, self.pieces, self.waste, self.trim]);
        words[4..68].copy_from_slice(&self.copies);
        words[68] = self.sawdust;
        words
    }

    fn from_words(words: [u64; REPORT_WORDS]) -> Report {
        let [profit, pieces, waste, trim, copies @ .., sawdust] = words;
        Report { profit, pieces, waste, trim, copies, sawdust }
    }
}

impl Words<STAGED_REPORT_WORDS> for StagedReport {
    fn to_words(&self) -> [u64; STAGED_REPORT_WORDS] {
        let mut words = [0; STAGED_REPORT_WORDS];
        words[..REPORT_WORDS].copy_from_slice(&self.report.to_words());
        words[REPORT_WORDS] = self.stages;
        words
    }

    fn from_words(words: [u64; STAGED_REPORT_WORDS]) -> StagedReport {
        let (report, stages) = words.split_at(REPORT_WORDS);
        let report = Report::from_words(report.try_into().expect("the words of a report"));
        StagedReport { report, stages: stages[0] }
    }
}

impl Words<SAW_WORDS> for SawReport {
    fn to_words(&self) -> [u64; SAW_WORDS] {
        let mut words = [0; SAW_WORDS];
        words[..3].copy_from_slice(&[self.pieces, self.waste, self.trim]);
        words[3..67].copy_from_slice(&self.copies);
        words[67] = self.sawdust;
        words
    }

    fn from_words(words: [u64; SAW_WORDS]) -> SawReport {
        let [pieces, waste, trim, copies @ .., sawdust] = words;
        SawReport { pieces, waste, trim, copies, sawdust }
    }
}

impl Words<2> for Part {
    fn to_words(&self) -> [u64; 2] {
        [self.first, self.entries]
    }

    fn from_words([first, entries]: [u64; 2]) -> Part {
        Part { first, entries }
    }
}

impl Words<4> for Bound {
    fn to_words(&self) -> [u64; 4] {
        [self.bound, self.capacity, self.lengths, self.widths]
    }

    fn from_words([bound, capacity, lengths, widths]: [u64; 4]) -> Bound {
        Bound { bound, capacity, lengths, widths }
    }
}

impl Words<5> for BoundTwo {
    fn to_words(&self) -> [u64; 5] {
        let [first, second] = self.capacities;
        [self.bound, first, second, self.lengths, self.widths]
    }

    fn from_words([bound, first, second, lengths, widths]: [u64; 5]) -> BoundTwo {
        BoundTwo { bound, capacities: [first, second], lengths, widths }
    }
}

impl Words<5> for Written {
    fn to_words(&self) -> [u64; 5] {
        let b = self.bound;
        [b.bound, b.capacity, b.lengths, b.widths, self.nodes]
    }

    fn from_words([bound, capacity, lengths, widths, nodes]: [u64; 5]) -> Written {
        Written { bound: Bound { bound, capacity, lengths, widths }, nodes }
    }
}

impl Words<5> for Exact {
    fn to_words(&self) -> [u64; 5] {
        [self.optimum, self.states, self.lengths, self.widths, self.nodes]
    }

    fn from_words([optimum, states, lengths, widths, nodes]: [u64; 5]) -> Exact {
        Exact { optimum, states, lengths, widths, nodes }
    }
}

impl Words<1> for Neat {
    fn to_words(&self) -> [u64; 1] {
        [self.nodes]
    }

    fn from_words([nodes]: [u64; 1]) -> Neat {
        Neat { nodes }
    }
}

impl Words<FOUND_WORDS> for Found {
    fn to_words(&self) -> [u64; FOUND_WORDS] {
        let mut words = [0; FOUND_WORDS];
        words[..2].copy_from_slice(&[self.bound, self.rounds]);
        words[2..].copy_from_slice(&self.weights);
        words
    }

    fn from_words([bound, rounds, weights @ ..]: [u64; FOUND_WORDS]) -> Found {
        Found { bound, rounds, weights }
    }
}

impl Words<0> for Passed {
    fn to_words(&self) -> [u64; 0] {
        []
    }

    fn from_words([]: [u64; 0]) -> Passed {
        Passed
    }
}

impl Words<3> for Fitted {
    fn to_words(&self) -> [u64; 3] {
        [self.nodes, self.length, self.width]
    }

    fn from_words([nodes, length, width]: [u64; 3]) -> Fitted {
        Fitted { nodes, length, width }
    }
}

impl Words<3> for PlatesNeeded {
    fn to_words(&self) -> [u64; 3] {
        [self.plates, self.bound, self.worth]
    }

    fn from_words([plates, bound, worth]: [u64; 3]) -> PlatesNeeded {
        PlatesNeeded { plates, bound, worth }
    }
}

impl Words<5> for Lagrangian {
    fn to_words(&self) -> [u64; 5] {
        let [bound, capacity, lengths, widths] = self.lowered.to_words();
        [self.bound, bound, capacity, lengths, widths]
    }

    fn from_words([bound, lowered @ ..]: [u64; 5]) -> Lagrangian {
        Lagrangian { bound, lowered: Bound::from_words(lowered) }
    }
}

impl Words<3> for Certificate {
    fn to_words(&self) -> [u64; 3] {
        [self.gap, self.bound, self.profit]
    }

    fn from_words([gap, bound, profit]: [u64; 3]) -> Certificate {
        Certificate { gap, bound, profit }
    }
}
