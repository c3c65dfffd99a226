// The heading of the panels: where each column stands, by the names that cut lists give it. Other columns are not
// read, and a notice names them.
use super::cells::Cell;
use super::fault::Expected;

pub const NAME: usize = 0;
pub const LENGTH: usize = 1;
pub const WIDTH: usize = 2;
pub const COUNT: usize = 3;
pub const PRICE: usize = 4;
pub const TURN: usize = 5;

/// The names of each column; the first is its own.
const NAMES: [&[&str]; 6] = [
    &["name", "description", "part", "panel"],
    &["length", "l"],
    &["width", "w"],
    &["count", "qty", "quantity", "pieces", "pcs"],
    &["price"],
    &["turn", "rotate", GRAIN],
];

/// The name of the column `turn` under which yes means that a panel may not be turned.
const GRAIN: &str = "grain";

/// The columns of a heading.
#[derive(Clone, Copy)]
pub struct Columns {
    places: [Option<usize>; NAMES.len()],
    /// How many there are, with those that are not read.
    pub all: usize,
    /// Whether the column `turn` says which panels have a grain.
    pub grain: bool,
}

impl Columns {
    /// The cell of a column, if the line has it.
    pub fn cell<'a>(&self, cells: &'a [Cell], column: usize) -> Option<&'a Cell> {
        self.places[column].and_then(|index| cells.get(index))
    }

    /// The cell of a column, if it is not empty.
    pub fn filled<'a>(&self, cells: &'a [Cell], column: usize) -> Option<&'a Cell> {
        self.cell(cells, column).filter(|cell| !cell.text.is_empty())
    }

    /// How many cells a line has at least.
    pub fn needed(&self) -> usize {
        self.places[..PRICE].iter().flatten().max().map_or(0, |last| last + 1)
    }
}

/// How many cells of a line name columns.
pub fn named(cells: &[Cell]) -> usize {
    cells.iter().filter(|cell| column_of(cell).is_some()).count()
}

/// The columns of a heading, and a notice of those that are not read. Of several columns of names the first counts.
pub fn columns(cells: &[Cell]) -> Result<(Columns, Option<String>), Expected> {
    let mut columns = Columns { places: [None; NAMES.len()], all: cells.len(), grain: false };
    let mut unread = Vec::new();
    for (index, cell) in cells.iter().enumerate() {
        match column_of(cell) {
            Some(NAME) if columns.places[NAME].is_some() => unread.push(title(index, cell)),
            Some(column) => {
                once(columns.places[column].is_none(), cell)?;
                columns.places[column] = Some(index);
                columns.grain |= bare(cell) == GRAIN;
            }
            None => unread.push(title(index, cell)),
        }
    }
    let unread = (!unread.is_empty()).then(|| unread.join(", "));
    if let Some(missing) = columns.places[..PRICE].iter().position(Option::is_none) {
        let beside =
            unread.map_or(String::new(), |unread| format!(" beside those that are not read, {unread}"));
        return Err(Expected::after(cells, format!("a column {}{beside}", NAMES[missing][0])));
    }
    Ok((columns, unread.map(|unread| format!("columns that are not read: {unread}"))))
}

fn column_of(cell: &Cell) -> Option<usize> {
    let name = bare(cell);
    NAMES.iter().position(|names| names.contains(&name.as_str()))
}

/// A heading in small letters, without the unit behind it and without a full stop.
fn bare(cell: &Cell) -> String {
    let name = cell.text.to_lowercase();
    let unit = ["(mm)", "[mm]", "in mm", " mm"].iter().find_map(|unit| name.strip_suffix(unit));
    unit.unwrap_or(&name).trim_end_matches(['.', ':']).trim().to_string()
}

fn title(index: usize, cell: &Cell) -> String {
    match cell.text.as_str() {
        "" => format!("number {} without a heading", index + 1),
        text => text.to_string(),
    }
}

pub fn once(first_time: bool, cell: &Cell) -> Result<(), Expected> {
    let again = || Expected::in_cell(cell, "something that was not said before");
    first_time.then_some(()).ok_or_else(again)
}
