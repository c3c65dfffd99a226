// Reads an order file: lines for plates, saw and turning, a heading, then a line for each panel.
// All faulty lines are reported, each with its first fault.
use super::cells::{cells, Cell};
use super::fault::{Expected, Fault};
use super::heading::{self, once, Columns};
use super::{commas, encoding, lengths, Order, Panel, Plate};
use crate::millimetres::Millimetres;

const LENGTH: &str = "a length above 0, in millimetres with at most three decimals or in inches as 23 1/2\"";

/// The most copies of a panel or plate, the greatest price or cost, and the most stages.
const MOST_COPIES: u32 = 10_000;
const MOST_PRICE: u32 = 1_000_000;
const MOST_STAGES: u32 = 8;

/// A value with its place in the file.
#[derive(Clone, Debug)]
pub struct Placed<T> {
    pub value: T,
    pub line: usize,
    pub column: usize,
}

impl<T> Placed<T> {
    pub fn fault(&self, expected: impl Into<String>, found: impl Into<String>) -> Fault {
        Expected::at(self.column, expected, found).on(self.line)
    }
}

/// A panel as its line has it: what it does not say of turning, the order says.
#[derive(Clone, Debug)]
pub struct PanelLine {
    name: String,
    sides: [Millimetres; 2],
    count: u32,
    price: Option<u32>,
    turns: Option<bool>,
}

impl Placed<PanelLine> {
    /// The panel in an order whose panels may be turned, or may not, where they do not say.
    pub fn turning(self, turning: bool) -> Placed<Panel> {
        let PanelLine { name, sides, count, price, turns } = self.value;
        let value = Panel { name, sides, count, price, turns: turns.unwrap_or(turning) };
        Placed { value, line: self.line, column: self.column }
    }
}

/// What the lines have said so far.
#[derive(Default)]
pub struct Draft {
    pub plates: Vec<Placed<Plate>>,
    pub trim: Option<Placed<Millimetres>>,
    pub stages: Option<u32>,
    pub kerf: Option<Placed<Millimetres>>,
    pub turning: Option<bool>,
    pub heading: Option<Heading>,
    pub panels: Vec<Placed<PanelLine>>,
    pub notices: Vec<String>,
    pub lines: usize,
    unit: bool,
}

/// The heading of the panels. After a faulty one no line can be read.
pub enum Heading {
    Faulty,
    Columns(Columns),
}

/// Reads an order, or says all that is wrong with it. `turning` stands for what the order says of it.
pub fn read(bytes: &[u8], turning: Option<bool>) -> Result<Order, Vec<Fault>> {
    let encoding::Decoded { text, notice } = encoding::decode(bytes).map_err(|fault| vec![fault])?;
    let mut draft = Draft { notices: Vec::from_iter(notice), ..Draft::default() };
    let mut faults = Vec::new();
    for line in text.lines() {
        draft.lines += 1;
        let read = cells(line).and_then(|cells| draft.line(&cells));
        faults.extend(read.err().map(|expected| expected.on(draft.lines)));
    }
    draft.turning = turning.or(draft.turning);
    if faults.is_empty() {
        draft.order()
    } else {
        Err(faults)
    }
}

impl Draft {
    fn line(&mut self, cells: &[Cell]) -> Result<(), Expected> {
        match self.heading {
            _ if cells.is_empty() => Ok(()),
            Some(Heading::Columns(columns)) => {
                commas::suspect(cells, columns.needed())?;
                self.panel(cells, columns)
            }
            Some(Heading::Faulty) => Ok(()),
            None if heading::named(cells) > 1 => self.heading(cells),
            None => {
                commas::suspect(cells, 2)?;
                self.before_heading(cells).map_err(|fault| commas::explain(fault, cells))
            }
        }
    }

    fn before_heading(&mut self, cells: &[Cell]) -> Result<(), Expected> {
        let (first, rest) = (&cells[0], &cells[1..]);
        match first.text.to_lowercase().as_str() {
            "plate" | "board" => self.plate(first, rest, false),
            "offcut" => self.plate(first, rest, true),
            "trim" => self.trim(first, rest),
            "stages" => self.stages(first, rest),
            "saw" => self.saw(rest),
            "turning" => self.turning(first, rest),
            // A word to spreadsheets; what separates cells is seen in each line.
            "sep=" => Ok(()),
            _ if heading::named(cells) > 0 => self.heading(cells),
            _ => Err(Expected::in_cell(
                first,
                "plate, offcut, trim, stages, saw, turning or the heading name, length, width, count, price",
            )),
        }
    }

    fn placed<T>(&self, cell: &Cell, value: T) -> Placed<T> {
        Placed { value, line: self.lines, column: cell.column }
    }

    /// A size of the stock: sides, then how many there are and what each costs, if that is said.
    fn plate(&mut self, first: &Cell, rest: &[Cell], offcut: bool) -> Result<(), Expected> {
        let expected = "LENGTH x WIDTH, as 2440 x 1220 or 96\" x 48\"";
        let missing = || Expected::after(std::slice::from_ref(first), expected);
        let (cell, rest) = rest.split_first().ok_or_else(missing)?;
        let sides = lengths::sides(&cell.text).map_err(|none| none.in_cell(cell, expected))?;
        let mut plate = Plate { sides, count: offcut.then_some(1), cost: u32::from(!offcut), offcut };
        let (mut counted, mut costed) = (false, offcut);
        for cell in rest.iter().filter(|cell| !cell.text.is_empty()) {
            match cell.text.to_lowercase().strip_prefix("cost").map(|cost| cost.trim().to_string()) {
                Some(text) => {
                    once(!costed, cell)?;
                    costed = true;
                    plate.cost = whole(&Cell { text, ..cell.clone() }, "a cost", MOST_PRICE)?;
                    if plate.cost == 0 {
                        return Err(Expected::in_cell(cell, "a cost above 0"));
                    }
                }
                None => {
                    once(!counted, cell)?;
                    counted = true;
                    plate.count =
                        Some(whole(cell, "how many there are, or a cost as cost 100", MOST_COPIES)?);
                }
            }
        }
        self.plates.push(self.placed(cell, plate));
        Ok(())
    }

    fn trim(&mut self, first: &Cell, rest: &[Cell]) -> Result<(), Expected> {
        let expected = "a width in millimetres, as trim, 10";
        let cell = only(first, rest, expected)?;
        let trim = lengths::side(&cell.text).map_err(|none| none.in_cell(cell, expected))?;
        once(self.trim.is_none(), first)?;
        self.trim = Some(self.placed(cell, trim));
        Ok(())
    }

    fn stages(&mut self, first: &Cell, rest: &[Cell]) -> Result<(), Expected> {
        let expected = format!("a number of stages from 1 to {MOST_STAGES}");
        let cell = only(first, rest, &expected)?;
        let stages = cell.text.parse().ok().filter(|stages| (1..=MOST_STAGES).contains(stages));
        once(self.stages.is_none(), first)?;
        self.stages = Some(stages.ok_or_else(|| Expected::in_cell(cell, expected))?);
        Ok(())
    }

    fn saw(&mut self, rest: &[Cell]) -> Result<(), Expected> {
        for cell in rest {
            let expected = "kerf or unit with millimetres, as kerf 3.2";
            let other = || Expected::in_cell(cell, expected);
            let (word, length) = cell.text.split_once(char::is_whitespace).ok_or_else(other)?;
            let length = lengths::length(length).map_err(|none| none.in_cell(cell, expected))?;
            match word.to_lowercase().as_str() {
                "kerf" if self.kerf.is_none() => self.kerf = Some(self.placed(cell, length)),
                "unit" if length == Millimetres::ZERO => {
                    return Err(Expected::in_cell(cell, "a unit above 0"));
                }
                // Orders of earlier days have it; sizes are no longer rounded to it.
                "unit" if !self.unit => self.unit = true,
                "kerf" | "unit" => return once(false, cell),
                _ => return Err(other()),
            }
        }
        Ok(())
    }

    fn turning(&mut self, first: &Cell, rest: &[Cell]) -> Result<(), Expected> {
        let turning = turns(only(first, rest, "yes or no")?, false)?;
        once(self.turning.is_none(), first)?;
        self.turning = Some(turning);
        Ok(())
    }

    fn heading(&mut self, cells: &[Cell]) -> Result<(), Expected> {
        self.heading = Some(Heading::Faulty);
        let (columns, notice) = heading::columns(cells)?;
        self.heading = Some(Heading::Columns(columns));
        self.notices.extend(notice);
        Ok(())
    }

    fn panel(&mut self, cells: &[Cell], columns: Columns) -> Result<(), Expected> {
        if let Some(cell) = cells.get(columns.all) {
            let fault = Expected::in_cell(cell, format!("no more than {} cells", columns.all));
            return Err(commas::explain(fault, cells));
        }
        let cell = |column: usize, expected: &str| {
            columns.cell(cells, column).ok_or_else(|| Expected::after(cells, expected))
        };
        let name = cell(heading::NAME, "a name")?;
        if name.text.is_empty() {
            return Err(Expected::in_cell(name, "a name"));
        }
        let length = cell(heading::LENGTH, LENGTH)?;
        let sides = [side(length)?, side(cell(heading::WIDTH, LENGTH)?)?];
        let count = whole(cell(heading::COUNT, "a count")?, "a count", MOST_COPIES)?;
        let price = columns.filled(cells, heading::PRICE).map(|cell| whole(cell, "a price", MOST_PRICE));
        let turns = columns.filled(cells, heading::TURN).map(|cell| turns(cell, columns.grain));
        let (price, turns) = (price.transpose()?, turns.transpose()?);
        let panel = PanelLine { name: name.text.clone(), sides, count, price, turns };
        self.panels.push(self.placed(length, panel));
        Ok(())
    }
}

/// The one cell that follows a word.
fn only<'a>(first: &Cell, rest: &'a [Cell], expected: &str) -> Result<&'a Cell, Expected> {
    match rest {
        [cell] => Ok(cell),
        [] => Err(Expected::after(std::slice::from_ref(first), expected)),
        [_, more, ..] => Err(Expected::in_cell(more, "the line's end")),
    }
}

/// Whether a panel may be turned. Where the cell tells of the `grain`, yes means that it may not.
fn turns(cell: &Cell, grain: bool) -> Result<bool, Expected> {
    match cell.text.to_lowercase().as_str() {
        "yes" | "y" | "x" | "1" | "true" => Ok(!grain),
        "no" | "n" | "0" | "false" | "none" => Ok(grain),
        "with grain" | "with the grain" | "along grain" | "along the grain" | "lengthwise" => Ok(false),
        "no grain" | "without grain" | "any" | "either" => Ok(true),
        _ => Err(Expected::in_cell(cell, "yes or no, x, 1 or 0, with grain or no grain")),
    }
}

fn side(cell: &Cell) -> Result<Millimetres, Expected> {
    lengths::side(&cell.text).map_err(|none| none.in_cell(cell, LENGTH))
}

fn whole(cell: &Cell, what: &str, most: u32) -> Result<u32, Expected> {
    let number = cell.text.parse().ok().filter(|number| *number <= most);
    number.ok_or_else(|| Expected::in_cell(cell, format!("{what}, a whole number from 0 to {most}")))
}
