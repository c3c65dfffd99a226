// A plan in words: what a foreman reads on the terminal, and for each board the list of cuts in the order of sawing.
use crate::layout::{side_word, size, Cut, Part, Use};
use crate::millimetres::Millimetres;
use crate::outcome::{is_kept, Board, Outcome};
use std::fmt::Write;

/// Columns are no wider than this, whatever names they hold.
const WIDEST: usize = 100;

pub fn summary(outcome: &Outcome) -> String {
    let mut text = String::new();
    heading(outcome, &mut text);
    panels(outcome, &mut text);
    areas(outcome, &mut text);
    for (index, board) in outcome.boards.iter().enumerate() {
        list(outcome, index, board, &mut text);
    }
    text
}

fn heading(outcome: &Outcome, text: &mut String) {
    let order = &outcome.order;
    let plates: Vec<String> = order.plates.iter().map(|plate| size(plate.sides())).collect();
    let turning = match order.panels.iter().filter(|panel| panel.turns).count() {
        0 => "panels are not turned".to_string(),
        some if some == order.panels.len() => "panels may be turned".to_string(),
        some => format!("{some} of {} panels may be turned", order.panels.len()),
    };
    let noun = if plates.len() == 1 { "plate" } else { "plates" };
    line(text, format!("{noun} {} mm, kerf {} mm; {turning}", plates.join(", "), order.kerf));
}

fn panels(outcome: &Outcome, text: &mut String) {
    let (panels, copies) = (&outcome.order.panels, outcome.copies());
    let widest = panels.iter().map(|panel| panel.name.chars().count()).max().unwrap_or(0).clamp(5, WIDEST);
    line(text, format!("\n{:widest$}  {:>15}  cut  ordered", "panel", "size in mm"));
    for (panel, cut) in panels.iter().zip(&copies) {
        let (size, ordered) = (size(panel.sides()), panel.count);
        line(text, format!("{:widest$}  {size:>15}  {cut:>3}  {ordered:>7}", panel.name));
    }
    let cut: u64 = copies.iter().map(|copies| u64::from(*copies)).sum();
    let ordered: u64 = panels.iter().map(|panel| u64::from(panel.count)).sum();
    line(text, format!("{:widest$}  {:>15}  {cut:>3}  {ordered:>7}", "all", ""));
}

fn areas(outcome: &Outcome, text: &mut String) {
    let share = |(name, tenths): (&str, u128)| format!("{name} {}.{} %", tenths / 10, tenths % 10);
    line(text, format!("\n{}", outcome.shares().map(share).join(", ")));
    line(text, format!("worth {}", outcome.worth()));
    line(text, outcome.sentence());
}

fn list(outcome: &Outcome, index: usize, board: &Board, text: &mut String) {
    let sides = size(outcome.sides(board));
    let sort = if outcome.order.plates[board.plate].offcut { "offcut" } else { "board" };
    let (number, all) = (index + 1, outcome.boards.len());
    line(text, format!("\n{sort} {number} of {all}, {sides} mm"));
    let kept: Vec<String> =
        board.layout.rests.iter().filter(|rest| is_kept(rest)).map(|rest| rest.size()).collect();
    if !kept.is_empty() {
        line(text, format!("rests to keep: {}", kept.join(", ")));
    }
    if board.layout.cuts.is_empty() {
        line(text, format!("no cuts, {}", becomes(outcome, &board.layout.board)));
        return;
    }
    line(text, "cuts in the order of sawing");
    let rows: Vec<_> = board.layout.cuts.iter().map(|cut| described(outcome, cut)).collect();
    let wide =
        |column: usize| rows.iter().map(|row| row[column].chars().count()).max().unwrap_or(0).min(WIDEST);
    let (a, b, c) = (wide(0), wide(1), wide(2));
    for (index, [of, at, first, second]) in rows.iter().enumerate() {
        line(text, format!("{:>4}  {of:a$}  {at:b$}  {first:c$}  {second}", index + 1));
    }
}

/// What is cut, the fence setting, and what both parts become.
fn described(outcome: &Outcome, cut: &Cut) -> [String; 4] {
    let at = format!("{} at {}", side_word(cut.direction), Millimetres::of_thousandths(cut.at));
    let second = cut.second.map_or("nothing".to_string(), |part| becomes(outcome, &part));
    [cut.of.size(), at, becomes(outcome, &cut.first), second]
}

fn becomes(outcome: &Outcome, part: &Part) -> String {
    let size = part.rect.size();
    match part.becomes {
        Use::Cut(number) => format!("{size}: cut {number}"),
        Use::Rest => format!("{size}: rest"),
        Use::Panel { panel, turned } => {
            let turned = if turned { " turned" } else { "" };
            format!("{size}: {}{turned}", outcome.order.panels[panel].name)
        }
    }
}

fn line(text: &mut String, line: impl AsRef<str>) {
    writeln!(text, "{}", line.as_ref().trim_end()).expect("a string takes all text");
}
