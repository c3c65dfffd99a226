// The drawing of a board as a file of its own: an A4 page with the board as large as it fits, and below it which letter
// is which panel.
use crate::drawing::Drawing;
use crate::layout::size;
use crate::outcome::{Board, Outcome};
use crate::text::{escaped, letter, shortened, text_width};
use std::fmt::Write;

const MARGIN: f64 = 10.0;
const HEADING: f64 = 10.0;

/// A row of the legend and its letters, in millimetres on paper.
const ROW: f64 = 4.0;
const LETTERS: f64 = 2.8;
const COLUMNS: usize = 3;

pub fn svg(outcome: &Outcome, index: usize) -> String {
    let board = &outcome.boards[index];
    let [length, width] = outcome.sides(board);
    let page = if length >= width { [297.0, 210.0] } else { [210.0, 297.0] };
    let entries = entries(outcome, board);
    let legend = ROW * (entries.len().div_ceil(COLUMNS) + 1) as f64;
    let room = [page[0] - 2.0 * MARGIN, page[1] - 2.0 * MARGIN - HEADING - legend];
    let (drawing, paper) = Drawing::new(outcome, index, room);
    let [wide, high] = page;
    let mut text = format!(
        "<svg xmlns=\"http://www.w3.org/2000/svg\" role=\"img\" width=\"{wide}mm\" height=\"{high}mm\" \
         viewBox=\"0 0 {wide} {high}\" font-family=\"Arial, Helvetica, sans-serif\">\n\
         <title>{}</title>\n<style>@page {{ size: {wide}mm {high}mm; margin: 0 }}</style>\n\
         <rect width=\"100%\" height=\"100%\" fill=\"white\"/>\n",
        escaped(&drawing.title()),
    );
    let kerf = outcome.order.kerf;
    let heading = format!("{}, kerf {kerf} mm. {}", drawing.title(), outcome.sentence());
    put(&mut text, [MARGIN, MARGIN + 4.0], page[0] - 2.0 * MARGIN, 4.0, &heading);
    let shift = MARGIN + HEADING;
    let corner = [MARGIN, shift].map(|at| at + crate::drawing::BESIDE);
    let (x, y, scale) = (corner[0], corner[1], drawing.scale);
    writeln!(
        text,
        "<g transform=\"translate({x:.3} {y:.3}) scale({scale:.6})\">\n{}</g>",
        drawing.elements()
    )
    .expect("a string takes all text");
    let column = (page[0] - 2.0 * MARGIN) / COLUMNS as f64;
    for (row, entry) in entries.iter().enumerate() {
        let at =
            [MARGIN + column * (row % COLUMNS) as f64, shift + paper[1] + ROW * (row / COLUMNS + 1) as f64];
        put(&mut text, at, column - 2.0, LETTERS, entry);
    }
    text + "</svg>\n"
}

/// What the letters on a board mean: name, size, and how many are on it.
fn entries(outcome: &Outcome, board: &Board) -> Vec<String> {
    let entry = |panel: &usize| {
        let copies = board.layout.panels.iter().filter(|laid| laid.panel == *panel).count();
        let ordered = &outcome.order.panels[*panel];
        format!("{}  {copies} x {}  {}", letter(*panel), size(ordered.sides()), ordered.name)
    };
    board.panels().iter().map(entry).collect()
}

/// Words from a place on, cut to a width on paper.
fn put(text: &mut String, [x, y]: [f64; 2], room: f64, height: f64, words: &str) {
    let words = shortened(words, room / height);
    let wide = height * text_width(&words);
    let words = escaped(&words);
    writeln!(
        text,
        "<text x=\"{x:.3}\" y=\"{y:.3}\" font-size=\"{height}\" textLength=\"{wide:.3}\" \
         lengthAdjust=\"spacingAndGlyphs\">{words}</text>"
    )
    .expect("a string takes all text");
}
