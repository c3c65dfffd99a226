// The page to saw from: the order's summary, an A4 sheet a board with its drawing and its cut list, a label for each
// panel, and the proof. One file that needs no script and nothing from outside, to be printed by any browser.
use crate::drawing::Drawing;
use crate::layout::{side_word, size, Cut, Part, Use};
use crate::millimetres::Millimetres;
use crate::outcome::{is_kept, Board, Outcome};
use crate::text::{escaped, letter};
use std::fmt::Write;

/// Room for a drawing on its sheet, in millimetres.
const DRAWING: [f64; 2] = [190.0, 150.0];

/// Longer lists of panels stand in two columns.
const FEW_PANELS: usize = 10;

/// What a sheet has for drawing and lists, and what a row of a list takes, in millimetres.
const SHEET: f64 = 258.0;
const ROW: f64 = 4.7;

/// Labels on a sheet, 3 by 8.
const LABELS: usize = 24;

const STYLE: &str = include_str!("sheet.css");

/// What the page says beside the plan: the order's name and the day.
pub struct Heading {
    pub order: String,
    pub date: String,
}

pub fn html(outcome: &Outcome, heading: &Heading) -> String {
    let mut page = Page { outcome, heading, text: String::new() };
    let title = escaped(&format!("{}: {}", heading.order, outcome.sentence()));
    page.put(format!(
        "<!doctype html>\n<html lang=\"en\">\n<head>\n<meta charset=\"utf-8\">\n<title>{title}</title>\n\
         <style>\n{STYLE}</style>\n</head>\n<body>"
    ));
    page.summary();
    (0..outcome.boards.len()).for_each(|index| page.board(index));
    page.labels();
    page.proof();
    page.put("</body>\n</html>");
    page.text
}

struct Page<'a> {
    outcome: &'a Outcome,
    heading: &'a Heading,
    text: String,
}

impl Page<'_> {
    fn put(&mut self, line: impl AsRef<str>) {
        writeln!(self.text, "{}", line.as_ref()).expect("a string takes all text");
    }

    /// A table of headings and rows.
    fn table(&mut self, class: &str, columns: &[&str], rows: impl Iterator<Item = Vec<String>>) {
        let cells = |tag: &str, cells: &[String]| {
            cells.iter().map(|cell| format!("<{tag}>{}</{tag}>", escaped(cell))).collect::<String>()
        };
        let columns: Vec<String> = columns.iter().map(|column| column.to_string()).collect();
        self.put(format!(
            "<table class=\"{class}\">\n<thead><tr>{}</tr></thead>\n<tbody>",
            cells("th", &columns)
        ));
        rows.for_each(|row| self.put(format!("<tr>{}</tr>", cells("td", &row))));
        self.put("</tbody></table>");
    }

    fn paragraph(&mut self, class: &str, words: &str) {
        self.put(format!("<p class=\"{class}\">{}</p>", escaped(words)));
    }

    fn summary(&mut self) {
        let outcome = self.outcome;
        let (order, date) = (escaped(&self.heading.order), escaped(&self.heading.date));
        self.put(format!("<section class=\"sheet\">\n<h1>{order}</h1>\n<p class=\"date\">{date}</p>"));
        self.paragraph("verdict", &outcome.sentence());
        let share = |(name, tenths): (&str, u128)| format!("{name} {}.{} %", tenths / 10, tenths % 10);
        self.paragraph(
            "shares",
            &format!("{}; worth {}", outcome.shares().map(share).join(", "), outcome.worth()),
        );
        self.put("<h2>Boards</h2>");
        let boards = outcome.boards.iter().enumerate().map(|(index, board)| board_row(outcome, index, board));
        self.table("boards", &["board", "size in mm", "panels", "cuts", "rests to keep"], boards);
        self.put("<h2>Panels</h2>");
        let copies = outcome.copies();
        let panels = outcome.order.panels.iter().enumerate().map(|(index, panel)| {
            let (size, cut, ordered) =
                (size(panel.sides()), copies[index].to_string(), panel.count.to_string());
            vec![letter(index), panel.name.clone(), size, ordered, cut]
        });
        self.table("panels", &["", "panel", "size in mm", "ordered", "cut"], panels);
        outcome.order.notices.iter().for_each(|notice| self.paragraph("notice", notice));
        self.put("</section>");
    }

    fn board(&mut self, index: usize) {
        let outcome = self.outcome;
        let board = &outcome.boards[index];
        let (drawing, paper) = Drawing::new(outcome, index, DRAWING);
        let title = escaped(&drawing.title());
        let (order, date) = (escaped(&self.heading.order), escaped(&self.heading.date));
        self.put(format!(
            "<section class=\"sheet board\">\n<header><b>{title}</b><span>{order}</span><span>kerf {} mm</span>\
             <span>scale 1 : {:.1}</span><span>{date}</span></header>",
            outcome.order.kerf,
            1.0 / drawing.scale,
        ));
        self.put(drawing.standing(paper));
        let panels = board.panels();
        let rows = panels.iter().map(|panel| {
            let copies = board.layout.panels.iter().filter(|laid| laid.panel == *panel).count();
            let ordered = &outcome.order.panels[*panel];
            vec![
                letter(*panel),
                ordered.name.clone(),
                size(ordered.sides()),
                copies.to_string(),
                grain(ordered.turns),
            ]
        });
        self.in_columns(panels.len() > FEW_PANELS, |page| {
            page.table("panels", &["", "panel", "size in mm", "here", "grain"], rows);
        });
        let listed = if panels.len() > FEW_PANELS { panels.len().div_ceil(2) } else { panels.len() };
        self.cuts(board, SHEET - paper[1] - ROW * (listed + 1) as f64);
        self.put("</section>");
    }

    /// The list of cuts, in two columns where one does not fit the room that is left of the sheet.
    fn cuts(&mut self, board: &Board, room: f64) {
        let cuts = &board.layout.cuts;
        if cuts.is_empty() {
            return self.paragraph("cuts", "No cut.");
        }
        let outcome = self.outcome;
        let rows = cuts.iter().enumerate().map(|(index, cut)| cut_row(outcome, index + 1, cut));
        self.in_columns(ROW * (cuts.len() + 1) as f64 > room, |page| {
            page.table("list", &["cut", "of", "side", "fence", "first part", "second part"], rows);
        });
    }

    /// What is put stands in two columns where there is much of it.
    fn in_columns(&mut self, many: bool, put: impl FnOnce(&mut Self)) {
        self.put(if many { "<div class=\"many\">" } else { "<div>" });
        put(self);
        self.put("</div>");
    }

    /// A label for each panel that is cut, board after board, in sheets of 3 by 8.
    fn labels(&mut self) {
        let outcome = self.outcome;
        let mut labels = Vec::new();
        for (index, board) in outcome.boards.iter().enumerate() {
            labels.extend(board.layout.panels.iter().map(|laid| (index + 1, laid)));
        }
        for sheet in labels.chunks(LABELS) {
            self.put("<section class=\"labels\">");
            for (board, laid) in sheet {
                let panel = &outcome.order.panels[laid.panel];
                let (order, name) = (escaped(&self.heading.order), escaped(&panel.name));
                let (letter, size, grain) = (letter(laid.panel), size(panel.sides()), grain(panel.turns));
                self.put(format!(
                    "<div class=\"label\"><b>{letter}</b> <span class=\"name\">{name}</span><br>{size} mm<br>\
                     <span class=\"name\">{order}</span><br>board {board}{}{grain}</div>",
                    if grain.is_empty() { "" } else { ", grain " },
                ));
            }
            self.put("</section>");
        }
    }

    fn proof(&mut self) {
        let outcome = self.outcome;
        self.put("<section class=\"sheet proof\">\n<h2>The proof</h2>");
        self.paragraph("verdict", &outcome.sentence());
        self.paragraph(
            "",
            "Every plan was sawn once more, cut by cut with the blade's width, and every panel came off at exactly its \
             size. The verdict rests on calls of the planner's library, each of which is proved: that a small model in whole \
             units stands for the true sizes, and the bound on what any guillotine plan of that model can hold.",
        );
        let rows = outcome.evidence.iter().map(|part| {
            let plate = size(outcome.order.plates[part.stock].sides());
            let [length, width] = part.model.plate;
            vec![plate, format!("{length} x {width} units")]
        });
        let rows: Vec<Vec<String>> = rows.collect();
        if !rows.is_empty() {
            self.table("models", &["board in mm", "its model"], rows.into_iter());
        }
        self.paragraph(
            "",
            "To check it again: plan this order with --stamp FILE, and say plan recheck FILE.",
        );
        self.put("</section>");
    }
}

fn board_row(outcome: &Outcome, index: usize, board: &Board) -> Vec<String> {
    let kept: Vec<String> =
        board.layout.rests.iter().filter(|rest| is_kept(rest)).map(|rest| rest.size()).collect();
    let (panels, cuts) = (board.layout.panels.len(), board.layout.cuts.len());
    let number = (index + 1).to_string();
    vec![number, size(outcome.sides(board)), panels.to_string(), cuts.to_string(), kept.join("; ")]
}

/// A cut: its number, what it cuts, the side, the fence setting and what both parts become.
fn cut_row(outcome: &Outcome, number: usize, cut: &Cut) -> Vec<String> {
    let at = Millimetres::of_thousandths(cut.at).to_string();
    let second = cut.second.map_or("nothing".to_string(), |part| becomes(outcome, &part));
    let side = side_word(cut.direction).to_string();
    vec![number.to_string(), cut.of.size(), side, at, becomes(outcome, &cut.first), second]
}

fn becomes(outcome: &Outcome, part: &Part) -> String {
    match part.becomes {
        Use::Cut(number) => format!("cut {number}"),
        Use::Rest => format!("rest {}", part.rect.size()),
        Use::Panel { panel, turned } => {
            let turned = if turned { ", turned" } else { "" };
            format!("{} {}{turned}", letter(panel), outcome.order.panels[panel].name)
        }
    }
}

/// Which way the grain of a panel runs, where it has one.
fn grain(turns: bool) -> String {
    if turns {
        String::new()
    } else {
        "along the length".to_string()
    }
}
