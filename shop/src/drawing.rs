// The drawing of one board: panels lettered, named and dimensioned, rests hatched with their sizes, the kerf as wide as
// it is, each cut with its number and its fence setting, an arrow for the grain. Rectangles are exact millimetres of the
// board; heights of text are millimetres on paper. A text that finds no free place is left out: lists have them all.
use crate::layout::{size, Cut, Laid, Rect};
use crate::millimetres::Millimetres;
use crate::outcome::{Board, Outcome};
use crate::places::{Places, Spot};
use crate::plan::{Direction, Sides};
use crate::text::{escaped, letter, text_width};
use std::fmt::Write;

/// Room beside the board for its dimensions, in millimetres on paper.
pub const BESIDE: f64 = 6.0;

/// Words are no lower and no higher than this.
const LEAST: f64 = 1.7;
const MOST: f64 = 4.0;
const DIMENSION: f64 = 3.0;

/// The heights of marks at cuts that are tried one after another, on boards of few cuts and of many.
const MARKS: [f64; 3] = [2.6, 2.1, 1.7];
const MANY_MARKS: [f64; 2] = [1.7, 1.4];
const MANY_CUTS: usize = 80;

/// Words that find no place are tried again so much lower.
const LOWER: f64 = 0.85;

/// How far lines of text stand apart, in heights of their letters.
const LINE: f64 = 1.2;

/// A board's drawing in a room on paper: its sides there, and the elements of it, to stand at the corner of that room.
pub struct Drawing<'a> {
    outcome: &'a Outcome,
    board: &'a Board,
    /// Tells the patterns of several boards in one document apart.
    index: usize,
    /// Millimetres on paper for one of the board.
    pub scale: f64,
    text: String,
    places: Places,
}

impl<'a> Drawing<'a> {
    /// The drawing of a board, as large as a room on paper allows, and its sides on paper.
    pub fn new(outcome: &'a Outcome, index: usize, room: [f64; 2]) -> (Drawing<'a>, [f64; 2]) {
        let board = &outcome.boards[index];
        let sides = in_millimetres(board.layout.board.rect.sides());
        let scale = ((room[0] - BESIDE) / sides[0]).min((room[1] - BESIDE) / sides[1]);
        let paper = sides.map(|side| side * scale + BESIDE);
        let mut drawing =
            Drawing { outcome, board, index, scale, text: String::new(), places: Places::default() };
        drawing.draw();
        (drawing, paper)
    }

    /// The elements, in millimetres of the board from its corner.
    pub fn elements(&self) -> &str {
        &self.text
    }

    /// The drawing as an element of its own, with a title and a description.
    pub fn standing(&self, paper: [f64; 2]) -> String {
        let [wide, high] = paper.map(|side| side / self.scale);
        let beside = BESIDE / self.scale;
        let title = escaped(&self.title());
        let description = escaped(&self.description());
        format!(
            "<svg xmlns=\"http://www.w3.org/2000/svg\" role=\"img\" width=\"{:.3}mm\" height=\"{:.3}mm\" \
             viewBox=\"{:.3} {:.3} {wide:.3} {high:.3}\" font-family=\"Arial, Helvetica, sans-serif\">\n\
             <title>{title}</title>\n<desc>{description}</desc>\n{}</svg>\n",
            paper[0], paper[1], -beside, -beside, self.text,
        )
    }

    pub fn title(&self) -> String {
        let (number, all) = (self.index + 1, self.outcome.boards.len());
        format!("Board {number} of {all}, {} mm", size(self.outcome.sides(self.board)))
    }

    /// What lies on the board, in words.
    fn description(&self) -> String {
        let copies = |panel: &usize| {
            let copies = self.board.layout.panels.iter().filter(|laid| laid.panel == *panel).count();
            let ordered = &self.outcome.order.panels[*panel];
            format!("{copies} x {} {}", ordered.name, size(ordered.sides()))
        };
        let panels: Vec<String> = self.board.panels().iter().map(copies).collect();
        format!("{} cuts; {}", self.board.layout.cuts.len(), panels.join("; "))
    }

    fn draw(&mut self) {
        let sides = self.board.layout.board.rect.sides();
        self.open(sides);
        let layout = &self.board.layout;
        layout.rests.iter().for_each(|rest| self.rest(*rest));
        layout.panels.iter().for_each(|laid| self.panel(laid));
        layout.cuts.iter().for_each(|cut| self.cut(cut));
        self.marks();
        layout.panels.iter().for_each(|laid| self.panel_words(laid));
        layout.rests.iter().for_each(|rest| self.rest_words(*rest));
        self.close(sides);
    }

    fn put(&mut self, line: impl AsRef<str>) {
        writeln!(self.text, "{}", line.as_ref()).expect("a string takes all text");
    }

    fn open(&mut self, sides: Sides) {
        let [length, width] = sides.map(Millimetres::of_thousandths);
        let kerf = self.outcome.order.kerf;
        self.put(format!("<g class=\"board\" data-kerf=\"{kerf}\" data-plate=\"{length} {width}\">"));
        let (spacing, thick) = (self.on_board(2.2), self.on_board(0.35));
        self.put(format!(
            "<pattern id=\"rest{}\" width=\"{spacing:.3}\" height=\"{spacing:.3}\" patternUnits=\"userSpaceOnUse\" \
             patternTransform=\"rotate(45)\"><path d=\"M{:.3} 0V{spacing:.3}\" stroke=\"#777\" \
             stroke-width=\"{thick:.3}\"/></pattern>",
            self.index,
            spacing / 2.0,
        ));
        let thin = self.on_board(0.3);
        self.put(format!(
            "<rect class=\"plate\" x=\"0\" y=\"0\" width=\"{length}\" height=\"{width}\" fill=\"white\" \
             stroke=\"black\" stroke-width=\"{thin:.3}\"/>"
        ));
    }

    /// The dimensions beside the board, and the way of the grain.
    fn close(&mut self, sides: Sides) {
        let [length, width] = sides.map(Millimetres::of_thousandths);
        let gap = self.on_board(1.2);
        let along = match self.outcome.order.panels.iter().any(|panel| !panel.turns) {
            true => format!("{length}   grain →"),
            false => length.to_string(),
        };
        self.words([length.as_f64() / 2.0, -gap], DIMENSION, Turn::Upright, &along);
        self.words([-gap, width.as_f64() / 2.0], DIMENSION, Turn::Quarter, &width.to_string());
        self.put("</g>");
    }

    /// So many millimetres on paper, in millimetres of the board.
    fn on_board(&self, paper: f64) -> f64 {
        paper / self.scale
    }

    fn sides(&self) -> [f64; 2] {
        in_millimetres(self.board.layout.board.rect.sides())
    }

    /// Words around the middle of their line, of a height on paper; as wide as is computed, whatever the letters are.
    fn words(&mut self, [x, y]: [f64; 2], height: f64, turn: Turn, words: &str) {
        let size = self.on_board(height);
        let wide = size * text_width(words);
        let turned = match turn {
            Turn::Upright => String::new(),
            Turn::Quarter => format!(" transform=\"rotate(-90 {x:.3} {y:.3})\""),
        };
        let words = escaped(words);
        self.put(format!(
            "<text x=\"{x:.3}\" y=\"{y:.3}\" font-size=\"{size:.3}\" text-anchor=\"middle\" textLength=\"{wide:.3}\" \
             lengthAdjust=\"spacingAndGlyphs\"{turned}>{words}</text>"
        ));
    }

    /// Lines of text around a middle, if they find their place there.
    fn lines(&mut self, middle: [f64; 2], height: f64, turn: Turn, lines: &[&str]) -> bool {
        let size = self.on_board(height);
        let sides = box_of(size, turn, lines);
        if !self.places.take(Spot { middle, sides }) {
            return false;
        }
        let top = LINE * size * (0.78 - lines.len() as f64 / 2.0);
        for (row, words) in lines.iter().enumerate() {
            let below = top + LINE * size * row as f64;
            let at = match turn {
                Turn::Upright => [middle[0], middle[1] + below],
                Turn::Quarter => [middle[0] + below, middle[1]],
            };
            self.words(at, height, turn, words);
        }
        true
    }

    fn rest(&mut self, rect: Rect) {
        let (place, index) = (place(rect), self.index);
        self.put(format!("<rect class=\"rest\" {place} fill=\"url(#rest{index})\"/>"));
    }

    fn panel(&mut self, laid: &Laid) {
        let (place, shade, thin) = (place(laid.rect), shade(laid.panel), self.on_board(0.2));
        let name = escaped(&self.outcome.order.panels[laid.panel].name);
        self.put(format!(
            "<rect class=\"piece\" {place} fill=\"{shade}\" stroke=\"black\" stroke-width=\"{thin:.3}\" \
             data-name=\"{name}\"/>"
        ));
    }

    /// A cut as the rectangle that the blade takes; a hair line where that is none.
    fn cut(&mut self, cut: &Cut) {
        let place = place(cut.blade());
        let thin = if self.board.layout.kerf == 0 { self.on_board(0.3) } else { 0.0 };
        self.put(format!(
            "<rect class=\"cut\" {place} fill=\"#222\" stroke=\"#222\" stroke-width=\"{thin:.3}\"/>"
        ));
    }

    /// Letter, name and size of a panel, or as much of it as fits.
    fn panel_words(&mut self, laid: &Laid) {
        let ordered = &self.outcome.order.panels[laid.panel];
        let (letter, size) = (letter(laid.panel), size(ordered.sides()));
        let named = format!("{letter}  {}", ordered.name);
        let sized = format!("{size}{}", if laid.turned { " turned" } else { "" });
        let choices = [
            vec![named.as_str(), sized.as_str()],
            vec![letter.as_str(), sized.as_str()],
            vec![letter.as_str()],
        ];
        self.fit(laid.rect, &choices);
    }

    /// The size of a rest, where it fits.
    fn rest_words(&mut self, rest: Rect) {
        let size = rest.size();
        self.fit(rest, &[vec![size.as_str()]]);
    }

    /// Puts the first words that fit a rectangle beside what stands there: in its middle, or moved towards an edge, as
    /// high as they can be.
    fn fit(&mut self, rect: Rect, choices: &[Vec<&str>]) {
        for lines in choices {
            let (mut height, turn) = self.fitted(lines, in_millimetres(rect.sides()));
            while height >= LEAST {
                let spots = self.spots(rect, height, turn, lines);
                if spots.iter().any(|middle| self.lines(*middle, height, turn, lines)) {
                    return;
                }
                height *= LOWER;
            }
        }
    }

    /// The middles that lines of text may have in a rectangle: its own first, then those towards its edges.
    fn spots(&self, rect: Rect, height: f64, turn: Turn, lines: &[&str]) -> Vec<[f64; 2]> {
        let (corner, sides) = (in_millimetres([rect.x, rect.y]), in_millimetres(rect.sides()));
        let own = box_of(self.on_board(height), turn, lines);
        let slack = [0, 1].map(|side| (sides[side] - own[side]).max(0.0) / 2.0);
        let moves = [0.0, 0.9, -0.9];
        let both = moves.iter().flat_map(|across| moves.iter().map(move |along| [*along, *across]));
        both.map(|moved| [0, 1].map(|side| corner[side] + sides[side] / 2.0 + moved[side] * slack[side]))
            .collect()
    }

    /// The greatest height of text at which lines fit a rectangle, and how they lie.
    fn fitted(&self, lines: &[&str], [length, width]: [f64; 2]) -> (f64, Turn) {
        let widest = lines.iter().map(|line| text_width(line)).fold(1.0, f64::max) + 0.6;
        let high = LINE * lines.len() as f64 + 0.3;
        let height =
            |along: f64, across: f64| (self.scale * along / widest).min(self.scale * across / high).min(MOST);
        let (upright, quarter) = (height(length, width), height(width, length));
        if upright >= quarter {
            (upright, Turn::Upright)
        } else {
            (quarter, Turn::Quarter)
        }
    }

    /// The marks of all cuts; short cuts have the least room and come first.
    fn marks(&mut self) {
        let board = self.board;
        let heights = if board.layout.cuts.len() > MANY_CUTS { &MANY_MARKS[..] } else { &MARKS };
        let mut numbered: Vec<(usize, &Cut)> = board.layout.cuts.iter().enumerate().collect();
        numbered.sort_by_key(|(_, cut)| match cut.direction {
            Direction::Length => cut.of.width,
            Direction::Width => cut.of.length,
        });
        for (index, cut) in numbered {
            let number = (index + 1).to_string();
            let whole = format!("{number}: {}", Millimetres::of_thousandths(cut.at));
            let tried = heights
                .iter()
                .map(|height| (&whole, *height))
                .chain(heights.iter().map(|height| (&number, *height)));
            for (words, height) in tried {
                if self.mark(words, height, cut) {
                    break;
                }
            }
        }
    }

    /// The mark of a cut on the blade's way, near where it enters.
    fn mark(&mut self, words: &str, height: f64, cut: &Cut) -> bool {
        let text = self.on_board(height);
        let sides = [(text_width(words) + 0.6).max(1.3) * text, 1.3 * text];
        let Some([x, y]) = self.places.take_along(ends(cut), sides, self.sides()) else {
            return false;
        };
        let [wide, high] = sides;
        let thin = self.on_board(0.2);
        self.put(format!(
            "<rect class=\"mark\" x=\"{:.3}\" y=\"{:.3}\" width=\"{wide:.3}\" height=\"{high:.3}\" rx=\"{:.3}\" \
             fill=\"white\" stroke=\"#222\" stroke-width=\"{thin:.3}\"/>",
            x - wide / 2.0,
            y - high / 2.0,
            high / 2.0,
        ));
        self.words([x, y + 0.36 * text], height, Turn::Upright, words);
        true
    }
}

/// The box of lines of text of a size.
fn box_of(size: f64, turn: Turn, lines: &[&str]) -> [f64; 2] {
    let widest = lines.iter().map(|line| text_width(line)).fold(0.0, f64::max) * size;
    let high = LINE * lines.len() as f64 * size;
    if turn == Turn::Upright {
        [widest, high]
    } else {
        [high, widest]
    }
}

/// How text lies.
#[derive(Clone, Copy, Debug, PartialEq, Eq)]
enum Turn {
    Upright,
    Quarter,
}

fn in_millimetres(sides: Sides) -> [f64; 2] {
    sides.map(|side| Millimetres::of_thousandths(side).as_f64())
}

/// The place of a rectangle as attributes, in exact millimetres.
fn place(rect: Rect) -> String {
    let [x, y, length, width] = [rect.x, rect.y, rect.length, rect.width].map(Millimetres::of_thousandths);
    format!("x=\"{x}\" y=\"{y}\" width=\"{length}\" height=\"{width}\"")
}

/// Where the middle of the blade enters and leaves.
fn ends(cut: &Cut) -> [[f64; 2]; 2] {
    let blade = cut.blade();
    let [x, y] = in_millimetres([blade.x, blade.y]);
    let [length, width] = in_millimetres(blade.sides());
    match cut.direction {
        Direction::Length => [[x + length / 2.0, y], [x + length / 2.0, y + width]],
        Direction::Width => [[x, y + width / 2.0], [x + length, y + width / 2.0]],
    }
}

/// A light shade for a panel: neighbours in the order differ most, and black print stays readable on each, also where
/// only greys are printed.
pub fn shade(panel: usize) -> String {
    let light = [90, 82, 95][panel % 3];
    format!("hsl({},55%,{light}%)", panel * 137 % 360)
}
