// The commands: plan an order, check a plan that somebody has drawn, certify a filed stamp again, say the usage.
// Each gives the text to print and what went wrong beside; an error is all that it gives where there is no plan.
use crate::csv::{cut_list, offcuts};
use crate::date::today;
use crate::error::Error;
use crate::html::{html, Heading};
use crate::json;
use crate::options::{Command, Form, Options, USAGE};
use crate::order::{self, Order};
use crate::outcome::Outcome;
use crate::output::{is_same, Output};
use crate::progress::Line;
use crate::search::{judge_plans, on_deep_stack, plan_board, plan_order};
use crate::stamp::{self, Stamp};
use crate::summary::summary;
use crate::svg::svg;
use std::fs;
use std::path::Path;

/// What a command gives: the text to print, and what could not be written.
#[derive(Debug, Default)]
pub struct Done {
    pub text: String,
    pub notices: Vec<String>,
    pub wrong: Vec<Error>,
}

/// Runs a command, on a stack of its own.
pub fn run(options: &Options) -> Result<Done, Error> {
    on_deep_stack(|| run_here(options))
}

fn run_here(options: &Options) -> Result<Done, Error> {
    let said = |text: String| Ok(Done { text, ..Done::default() });
    match &options.command {
        Command::Plan { order } => plan(order, options),
        Command::Check { order, plan } => check(order, plan, options),
        Command::Recheck { stamp } => said(recheck(stamp, options.limits.memory)?),
        Command::Help => said(format!("{USAGE}\n")),
        Command::Version => said(format!("plan {}\n", env!("CARGO_PKG_VERSION"))),
    }
}

fn plan(file: &Path, options: &Options) -> Result<Done, Error> {
    let order = read_order(file, options.turning)?;
    let outputs = open(options, &[file])?;
    let line = Line::new();
    let planned = match options.one {
        true => plan_board(order, options.limits, &line.progress()),
        false => plan_order(order, options.limits, &line.progress()),
    };
    line.clear();
    Ok(given(planned.map_err(|wrong| Error::plan(file, wrong))?, file, outputs))
}

/// Opens every output, none of which may be an input or another output.
fn open(options: &Options, inputs: &[&Path]) -> Result<Vec<(Form, Output)>, Error> {
    let clash = |file: &Path, with| Err(Error::Clash { file: file.to_path_buf(), with });
    for (index, (_, path)) in options.outputs.iter().enumerate() {
        if inputs.iter().any(|input| is_same(path, input)) {
            return clash(path, "what is read");
        }
        if options.outputs[..index].iter().any(|(_, other)| is_same(path, other)) {
            return clash(path, "named twice");
        }
    }
    options.outputs.iter().map(|(form, path)| Ok((*form, Output::open(path)?))).collect()
}

/// Everything that is given of an outcome; what cannot be written does not keep the rest back.
fn given(outcome: Outcome, file: &Path, outputs: Vec<(Form, Output)>) -> Done {
    let mut done =
        Done { text: summary(&outcome), notices: outcome.order.notices.clone(), wrong: Vec::new() };
    let order = file.file_stem().unwrap_or_default().to_string_lossy().into_owned();
    for (form, output) in outputs {
        let text = match form {
            Form::Svg => {
                done.wrong.extend(draw(&outcome, output));
                continue;
            }
            Form::Html => html(&outcome, &Heading { order: order.clone(), date: today() }),
            Form::Json => format!("{}\n", json::document(&outcome)),
            Form::Csv => cut_list(&outcome),
            Form::Rest => offcuts(&outcome),
            Form::Stamp => stamp::text(&outcome),
        };
        done.wrong.extend(output.write(text.as_bytes()).err());
    }
    done
}

/// Writes the drawings: of one board to the file named, of several each to a file with its number before the ending.
fn draw(outcome: &Outcome, output: Output) -> Vec<Error> {
    if outcome.boards.len() == 1 {
        return output.write(svg(outcome, 0).as_bytes()).err().into_iter().collect();
    }
    let path = output.path().to_path_buf();
    drop(output);
    let numbered = |index: usize| {
        let stem = path.file_stem().unwrap_or_default().to_string_lossy();
        let ending =
            path.extension().map_or(String::new(), |ending| format!(".{}", ending.to_string_lossy()));
        path.with_file_name(format!("{stem}-{}{ending}", index + 1))
    };
    let write = |index: usize| Output::open(&numbered(index))?.write(svg(outcome, index).as_bytes());
    (0..outcome.boards.len()).filter_map(|index| write(index).err()).collect()
}

fn check(file: &Path, plan: &Path, options: &Options) -> Result<Done, Error> {
    let order = read_order(file, options.turning)?;
    let bytes = read_file(plan)?;
    let read = || json::filed(&json::read(&json::text_of(&bytes)?)?, &order);
    let filed = read().map_err(|wrong| Error::document(plan, wrong))?;
    let outputs = open(options, &[file, plan])?;
    let outcome = judge_plans(order, filed, options.limits).map_err(|wrong| Error::plan(plan, wrong))?;
    Ok(given(outcome, file, outputs))
}

fn recheck(file: &Path, memory: u64) -> Result<String, Error> {
    let stamp = Stamp::read(&read_file(file)?).map_err(|wrong| Error::stamp(file, wrong))?;
    stamp.recheck(memory).map_err(|wrong| Error::stamp(file, wrong))
}

fn read_order(file: &Path, turning: Option<bool>) -> Result<Order, Error> {
    order::read(&read_file(file)?, turning)
        .map_err(|faults| Error::Faults { file: file.to_path_buf(), faults })
}

fn read_file(file: &Path) -> Result<Vec<u8>, Error> {
    fs::read(file).map_err(|error| Error::file(file, error))
}
