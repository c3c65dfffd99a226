// A stamp: what a shop files with a plan, so that it can be certified again from nothing. It holds the order with its
// names, the plans and what the proved calls read of the models, and nothing that they answer. docs/STAMP.md has its
// form, and that of the stamps of earlier days, which are still read.
use crate::json::{self, evidence, tree_document, Value};
use crate::order;
use crate::outcome::Outcome;
use crate::search::{judge_plans, Limits};
use crate::summary::summary;
use planner::{Choices, Job, Plan, Planner};
use std::fmt;

const MARK: &str = "plan stamp 2";
const OLD_MARK: &[u8; 8] = b"CUTSTAMP";

/// Why a stamp is not right.
#[derive(Clone, Debug)]
pub enum Wrong {
    /// It is no stamp, or not whole.
    Expected(&'static str),
    /// Its document has something else.
    Document(json::Expected),
    /// Its order has a fault.
    Order(order::Fault),
    /// Its plans are not right.
    Plan(crate::search::Error),
    /// A proved call refuses what an old stamp has.
    Call(planner::Error),
}

impl fmt::Display for Wrong {
    fn fmt(&self, f: &mut fmt::Formatter) -> fmt::Result {
        match self {
            Wrong::Expected(what) => write!(f, "expected {what}"),
            Wrong::Document(expected) => write!(f, "{expected}"),
            Wrong::Order(fault) => write!(f, "the order: {fault}"),
            Wrong::Plan(error) => write!(f, "{error}"),
            Wrong::Call(error) => write!(f, "{error}"),
        }
    }
}

impl std::error::Error for Wrong {}

/// A stamp of today: its document.
pub fn text(outcome: &Outcome) -> String {
    let boards = outcome.boards.iter().map(|board| tree_document(outcome, board)).collect();
    let document = Value::object([
        ("stamp", Value::text(MARK)),
        ("one", Value::Truth(outcome.one)),
        ("order", Value::text(order::text(&outcome.order))),
        ("boards", Value::List(boards)),
        ("evidence", Value::List(outcome.evidence.iter().map(evidence).collect())),
    ]);
    format!("{document}\n")
}

pub enum Stamp {
    Today(Value),
    Old(OldStamp),
}

/// A stamp of earlier days: a job in whole units, weights and a plan.
#[derive(Clone, Debug, PartialEq, Eq)]
pub struct OldStamp {
    pub choices: u32,
    pub job: Vec<u8>,
    pub weights: [Vec<u8>; 2],
    pub plan: Vec<u8>,
}

impl Stamp {
    /// Reads a stamp, or says what was expected. The blocks of an old one are left to the planner.
    pub fn read(bytes: &[u8]) -> Result<Stamp, Wrong> {
        if let Some(rest) = bytes.strip_prefix(OLD_MARK) {
            return OldStamp::read(rest).map(Stamp::Old);
        }
        let text = json::text_of(bytes).map_err(Wrong::Document)?;
        let document = json::read(&text).map_err(Wrong::Document)?;
        match document.get("stamp") {
            Some(Value::Text(mark)) if mark == MARK => Ok(Stamp::Today(document)),
            _ => Err(Wrong::Expected("the mark of a stamp")),
        }
    }

    /// Certifies the plans again, and says plate, panels and verdict.
    pub fn recheck(&self, memory: u64) -> Result<String, Wrong> {
        let document = match self {
            Stamp::Today(document) => document,
            Stamp::Old(old) => return old.recheck(memory),
        };
        let Some(Value::Text(text)) = document.get("order") else {
            return Err(Wrong::Expected("an order in the stamp"));
        };
        let order =
            order::read(text.as_bytes(), None).map_err(|mut faults| Wrong::Order(faults.swap_remove(0)))?;
        let mut filed = json::filed(document, &order).map_err(Wrong::Document)?;
        filed.one = document.get("one") == Some(&Value::Truth(true));
        if filed.one && filed.boards.len() != 1 {
            return Err(Wrong::Expected("one board"));
        }
        let limits = Limits { seconds: Some(std::time::Duration::ZERO), memory };
        let outcome = judge_plans(order, filed, limits).map_err(Wrong::Plan)?;
        Ok(summary(&outcome))
    }
}

impl OldStamp {
    fn read(rest: &[u8]) -> Result<OldStamp, Wrong> {
        let (fields, mut rest) = rest.split_at_checked(20).ok_or(Wrong::Expected("a header of 28 bytes"))?;
        let mut numbers =
            fields.chunks_exact(4).map(|four| u32::from_le_bytes([four[0], four[1], four[2], four[3]]));
        let choices = numbers.next().unwrap_or(0);
        let mut sections = Vec::new();
        for length in numbers {
            let split = rest.split_at_checked(length as usize);
            let (section, after) = split.ok_or(Wrong::Expected("as many bytes as the header says"))?;
            sections.push(section.to_vec());
            rest = after;
        }
        let [job, first, second, plan] = <[Vec<u8>; 4]>::try_from(sections).expect("four lengths");
        if !rest.is_empty() {
            return Err(Wrong::Expected("no bytes after the plan block"));
        }
        Ok(OldStamp { choices, job, weights: [first, second], plan })
    }

    fn recheck(&self, memory: u64) -> Result<String, Wrong> {
        let mut planner = Planner::of_block(self.job.clone(), self.choices, memory);
        let report = planner.check_block(&self.plan).map_err(Wrong::Call)?;
        let plan = Plan::from_block(&self.plan).expect("a block that passes its check");
        let job = Job::from_block(&self.job, Choices::from_word(self.choices))
            .expect("a job that passes its check");
        let [first, second] = &self.weights;
        let bound = match (first.is_empty(), second.is_empty()) {
            (true, true) => planner.exact().map_err(Wrong::Call)?.0.optimum,
            (false, true) => planner.certify(first, &plan).map_err(Wrong::Call)?.bound,
            _ => planner.bound_two(first, second).map_err(Wrong::Call)?.bound,
        };
        let worth: u64 = job.kinds.iter().map(|kind| u64::from(kind.price) * u64::from(kind.demand)).sum();
        let (earned, most) = (report.profit, bound.min(worth));
        let sentence = match most - earned {
            0 => "best: no guillotine plan of this plate in whole units earns more".to_string(),
            more if earned == 0 => format!("the plan earns nothing; at most {more} is possible"),
            more => {
                let tenths = (1000 * more).div_ceil(earned);
                format!("at most {}.{} % more is possible", tenths / 10, tenths % 10)
            }
        };
        Ok(format!(
            "earns {earned}, no plan earns more than {most}\n{sentence} (plate, panels and kerf as filed)\n"
        ))
    }
}
