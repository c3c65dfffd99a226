// The Markdown tables. Before a line is measured, all contenders must answer the same and leave the same
// memory; a difference ends the run.
use crate::calls::{Call, Run};
use crate::jobs::Job;
use crate::measure::{least, seconds};
use crate::memory::{Memory, UNTOUCHED};

/// A column that tells the size of a line's job.
#[derive(Clone, Copy)]
pub enum Fact {
    /// A word of the answer.
    Answer(usize),
    /// The words of the table.
    Words,
    /// The nodes of the plan that is read.
    Nodes,
}

pub struct Table {
    pub title: &'static str,
    pub facts: Vec<(&'static str, Fact)>,
    pub lines: Vec<(Job, &'static Call)>,
}

impl Table {
    /// Prints the lines whose job, call or table has the word in its name.
    pub fn print(&self, wanted: &str) {
        let has_word = |(job, call): &&(Job, &Call)| {
            [self.title, &job.name, call.name].iter().any(|name| name.contains(wanted))
        };
        let lines: Vec<&(Job, &Call)> = self.lines.iter().filter(has_word).collect();
        if !lines.is_empty() {
            self.print_lines(&lines);
        }
    }

    fn print_lines(&self, lines: &[&(Job, &Call)]) {
        let in_rust = lines.iter().any(|(_, call)| call.rust.is_some());
        let mut columns = vec!["job"];
        columns.extend(self.facts.iter().map(|(name, _)| *name));
        columns.extend(["call", "ours ms", "C ms"]);
        columns.extend(if in_rust { &["Rust ms", "ours / best"][..] } else { &["ours / C"] });
        let rule = columns.iter().map(|name| if matches!(*name, "job" | "call") { "---|" } else { "--:|" });
        println!("\n## {}\n\n{}\n|{}", self.title, row(&columns), rule.collect::<String>());
        for (job, call) in lines {
            println!("{}", self.line(job, call, in_rust));
        }
    }

    fn line(&self, job: &Job, call: &Call, in_rust: bool) -> String {
        let contenders = [Some(call.ours), Some(call.c), call.rust];
        let contenders: Vec<Run> = contenders.into_iter().flatten().collect();
        let (mut memory, first) = compared(job, call, &contenders);
        let mut cells = vec![job.name.clone()];
        cells.extend(self.facts.iter().map(|(_, fact)| fact.text(job, &memory)));
        cells.push(call.name.into());
        let least = least(&contenders, &first, job, &mut memory);
        cells.extend(least.iter().map(|&seconds| milliseconds(seconds)));
        cells.extend((in_rust && call.rust.is_none()).then(String::new));
        let best = least[1..].iter().copied().fold(f64::INFINITY, f64::min);
        cells.push(format!("{:.2}", least[0] / best));
        row(&cells)
    }
}

/// Runs every contender on memory of its own; gives ours, and the seconds of each.
fn compared(job: &Job, call: &Call, contenders: &[Run]) -> (Memory, Vec<f64>) {
    let run = |contender: &Run| {
        let mut memory = call.enough_for(job);
        let mut number = 0;
        let seconds = seconds(|| number = contender(job, &mut memory));
        assert_eq!(number, 0, "{} takes {}", call.name, job.name);
        (memory, seconds)
    };
    let (ours, first) = run(&contenders[0]);
    let mut all = vec![first];
    for other in &contenders[1..] {
        let (memory, seconds) = run(other);
        assert!(memory == ours, "all answer the same to {} for {}", call.name, job.name);
        all.push(seconds);
    }
    (ours, all)
}

impl Fact {
    /// Empty where the call has no such word.
    fn text(self, job: &Job, memory: &Memory) -> String {
        match self {
            Fact::Answer(word) if memory.answer[word] == UNTOUCHED => String::new(),
            Fact::Answer(word) => memory.answer[word].to_string(),
            Fact::Words => memory.table.len().to_string(),
            Fact::Nodes => job.kinds.len().to_string(),
        }
    }
}

/// Three digits that count.
fn milliseconds(seconds: f64) -> String {
    let ms = seconds * 1e3;
    let digits = (2.0 - ms.log10().floor()).clamp(0.0, 7.0) as usize;
    format!("{ms:.digits$}")
}

fn row<S: AsRef<str>>(cells: &[S]) -> String {
    let cells: Vec<&str> = cells.iter().map(AsRef::as_ref).collect();
    format!("| {} |", cells.join(" | "))
}
