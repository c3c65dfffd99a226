// The cut list for a spreadsheet, and the rests worth keeping as lines of the next order.
use crate::layout::{side_word, Part, Use};
use crate::millimetres::Millimetres;
use crate::outcome::{is_kept, Outcome};
use std::fmt::Write;

/// One line a cut: board, number, what is cut, the fence setting, and what both parts become.
pub fn cut_list(outcome: &Outcome) -> String {
    let mut text = "board,cut,length,width,direction,at,first length,first width,first,second length,second width,second\n".to_string();
    for (index, board) in outcome.boards.iter().enumerate() {
        for (number, cut) in board.layout.cuts.iter().enumerate() {
            let [length, width] = cut.of.sides().map(Millimetres::of_thousandths);
            let at = Millimetres::of_thousandths(cut.at);
            let first = part(outcome, Some(&cut.first));
            let second = part(outcome, cut.second.as_ref());
            let (board, number, side) = (index + 1, number + 1, side_word(cut.direction));
            writeln!(text, "{board},{number},{length},{width},{side},{at},{first},{second}")
                .expect("a string takes all text");
        }
    }
    text
}

fn part(outcome: &Outcome, part: Option<&Part>) -> String {
    let Some(part) = part else {
        return ",,nothing".to_string();
    };
    let [length, width] = part.rect.sides().map(Millimetres::of_thousandths);
    let becomes = match part.becomes {
        Use::Cut(number) => format!("cut {number}"),
        Use::Rest => "rest".to_string(),
        Use::Panel { panel, turned: false } => outcome.order.panels[panel].name.clone(),
        Use::Panel { panel, turned: true } => format!("{} (turned)", outcome.order.panels[panel].name),
    };
    format!("{length},{width},{}", quoted(&becomes))
}

/// A cell, in quotes where it needs them.
pub fn quoted(cell: &str) -> String {
    if cell.contains([',', ';', '"', '\t', '\n', '\r', '#']) || cell.trim() != cell {
        format!("\"{}\"", cell.replace('"', "\"\""))
    } else {
        cell.to_string()
    }
}

/// The rests worth keeping, largest first, as offcuts of the next order.
pub fn offcuts(outcome: &Outcome) -> String {
    let rests = outcome.boards.iter().flat_map(|board| &board.layout.rests);
    let mut kept: Vec<_> =
        rests.filter(|rest| is_kept(rest)).map(|rest| (rest.area(), rest.sides())).collect();
    kept.sort_unstable();
    kept.reverse();
    let mut text = String::new();
    for group in kept.chunk_by(|a, b| a == b) {
        let (size, count) = (crate::layout::size(group[0].1), group.len());
        let count = if count == 1 { String::new() } else { format!(", {count}") };
        writeln!(text, "offcut, {size}{count}").expect("a string takes all text");
    }
    text
}
