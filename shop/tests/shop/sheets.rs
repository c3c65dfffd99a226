// The page to saw from: no text of a drawing overlaps another or leaves its place, by the numbers in the drawing; and
// a real browser prints a sheet a board with every panel's name and every fence setting on it.
use crate::scratch::{shop, Scratch};
use crate::xml::{elements, Element};
use shop::json::Value;
use std::path::Path;
use std::process::Command;

/// A box in a drawing: left, right, top, bottom.
#[derive(Clone, Copy, Debug)]
struct Area([f64; 4]);

impl Area {
    fn meets(&self, other: &Area) -> bool {
        let ([a, b, c, d], [e, f, g, h]) = (self.0, other.0);
        a < f && e < b && c < h && g < d
    }

    fn holds(&self, other: &Area) -> bool {
        let ([a, b, c, d], [e, f, g, h]) = (self.0, other.0);
        a <= e && f <= b && c <= g && h <= d
    }
}

fn number(element: &Element, name: &str) -> f64 {
    let value = element.get(name).unwrap_or_else(|| panic!("{name} of {element:?}"));
    value.parse().unwrap_or_else(|_| panic!("{name} of {element:?}"))
}

/// The box of a text: its letters reach eight tenths of their size above the line and two below it.
fn words(text: &Element) -> Area {
    let [x, y, size, wide] = ["x", "y", "font-size", "textLength"].map(|name| number(text, name));
    let (before, behind) = (wide / 2.0, wide / 2.0);
    match text.get("transform") {
        None => Area([x - before, x + behind, y - 0.8 * size, y + 0.2 * size]),
        Some(turned) => {
            assert!(turned.starts_with("rotate(-90 "), "{turned}");
            Area([x - 0.8 * size, x + 0.2 * size, y - before, y + behind])
        }
    }
}

fn rect(element: &Element) -> Area {
    let [x, y, wide, high] = ["x", "y", "width", "height"].map(|name| number(element, name));
    Area([x, x + wide, y, y + high])
}

/// Every text of a board's drawing lies in a panel, a rest or the mark of a cut, but for the two dimensions beside it, and
/// no two texts meet, nor a text and another's mark.
fn stands_apart(svg: &str) {
    let elements = elements(svg).expect("a drawing");
    let start = elements.iter().position(|element| element.get("class") == Some("board")).expect("a board");
    let of = |class: &'static str| {
        elements.iter().filter(move |element| element.get("class") == Some(class)).map(rect)
    };
    let plate = of("plate").next().expect("a plate");
    let marks: Vec<Area> = of("mark").collect();
    let homes: Vec<Area> = of("piece").chain(of("rest")).chain(of("mark")).collect();
    let texts = elements[start..]
        .iter()
        .filter(|element| element.name == "text" && element.get("text-anchor").is_some());
    let texts: Vec<Area> = texts.map(words).collect();
    let beside = texts.iter().filter(|text| !plate.holds(text)).count();
    assert_eq!(beside, 2, "only the dimensions stand beside the board");
    for (index, text) in texts.iter().enumerate().filter(|(_, text)| plate.holds(text)) {
        assert!(homes.iter().any(|home| home.holds(text)), "{text:?} leaves its box");
        assert!(texts[..index].iter().all(|other| !text.meets(other)), "{text:?} overlaps another");
        let meeting = marks.iter().filter(|mark| mark.meets(text)).count();
        assert!(meeting <= 1, "{text:?} lies on a mark");
    }
    for (index, mark) in marks.iter().enumerate() {
        assert!(plate.holds(mark), "{mark:?} leaves the board");
        assert!(marks[..index].iter().all(|other| !mark.meets(other)), "{mark:?} overlaps another");
    }
}

/// An order of panels with long names, of sizes drawn by a number.
fn long_named(seed: u64) -> String {
    let mut state = seed.wrapping_mul(0x9e37_79b9_7f4a_7c15) | 1;
    let mut draw = |most: u64| {
        state ^= state << 13;
        state ^= state >> 7;
        state ^= state << 17;
        state % most
    };
    let mut text = String::from("plate, 2440 x 1220\nsaw, kerf 3.2\nname, length, width, count\n");
    for kind in 0..4 + seed * 7 % 60 {
        let name = format!("the panel of a very long name, WWWWWWWW {kind} gg");
        let (length, width) = (30 + draw(900), 20 + draw(500));
        text += &format!("\"{name}\", {length}.{}, {width}, {}\n", draw(10), 1 + draw(4));
    }
    text
}

#[test]
fn no_text_overlaps_or_leaves_its_box() {
    let scratch = Scratch::new("texts");
    for seed in 1..9 {
        let order = scratch.write("order.csv", long_named(seed));
        scratch.plan(&order, &["--seconds", "0.3"]).expect("an order without fault");
        let drawings = scratch.drawings();
        assert!(!drawings.is_empty());
        drawings.iter().for_each(|drawing| stands_apart(drawing));
    }
}

/// Whether a program of Debian's is installed.
fn installed(program: &str) -> bool {
    let found = Path::new("/usr/bin").join(program).exists();
    if !found {
        println!("{program} is not installed: its part was not run");
    }
    found
}

/// The text of each page that a browser prints, without its spaces.
fn printed(scratch: &Scratch) -> Vec<String> {
    let (page, pdf) = (format!("file://{}", scratch.path("plan.html")), scratch.path("plan.pdf"));
    let print = format!("--print-to-pdf={pdf}");
    let words = ["--headless", "--no-sandbox", "--disable-gpu", "--no-pdf-header-footer", &print, &page];
    let done = Command::new("chromium").args(words).output().expect("the browser runs");
    assert!(done.status.success(), "{}", String::from_utf8_lossy(&done.stderr));
    let text = Command::new("pdftotext").args([&pdf, "-"]).output().expect("the reader runs");
    let text = String::from_utf8(text.stdout).expect("UTF-8");
    let pages = text.trim_end_matches('\u{c}').split('\u{c}');
    pages.map(|page| page.split_whitespace().collect()).collect()
}

/// The names and the fence settings of a board's plan.
fn said(node: &Value, names: &mut Vec<String>, settings: &mut Vec<String>) {
    if let Some(Value::Text(name)) = node.get("piece") {
        names.push(name.split_whitespace().collect());
    }
    if let Some(at) = node.get("at") {
        settings.push(at.to_string());
    }
    for part in ["first", "second"] {
        node.get(part).into_iter().for_each(|part| said(part, names, settings));
    }
}

#[test]
fn a_browser_prints_a_sheet_a_board() {
    if !installed("chromium") || !installed("pdftotext") {
        return;
    }
    let scratch = Scratch::new("pages");
    let order = "plate, 2440 x 1220\nsaw, kerf 3.2\nturning, yes\nname, length, width, count\n\
                 door <left> & right, 1300.5, 600, 4\nside, 810, 580, 6\nfiller, 315, 1200, 3\nlong rail, 2400, 61.3, 5\n";
    let order = scratch.write("order.csv", order);
    let html = scratch.path("plan.html");
    scratch.plan(&order, &["--seconds", "0.5", "--html", &html]).expect("an order without fault");
    let pages = printed(&scratch);
    let document = scratch.document();
    let Some(Value::List(boards)) = document.get("boards") else { panic!("boards") };
    let panels = 4 + 6 + 3 + 5usize;
    assert_eq!(pages.len(), 1 + boards.len() + panels.div_ceil(24) + 1, "{pages:?}");
    for (page, board) in pages[1..].iter().zip(boards) {
        let (mut names, mut settings) = (Vec::new(), Vec::new());
        said(board.get("plan").expect("a plan"), &mut names, &mut settings);
        assert!(!names.is_empty() && !settings.is_empty());
        names.iter().chain(&settings).for_each(|word| assert!(page.contains(word), "{word} of {page}"));
    }
}

#[test]
fn a_page_needs_nothing_from_outside() {
    let scratch = Scratch::new("page");
    let order =
        "plate, 100 x 100\nsaw, kerf 1\nname, length, width, count\n<script>alert(1)</script>, 50, 40, 2\n";
    let order = scratch.write("order.csv", order);
    let html = scratch.path("plan.html");
    shop(&[&order, "--html", &html, "--seconds", "0.2"]).expect("an order without fault");
    let page = scratch.read("plan.html");
    for outside in ["<script", "http:", "https:", "src=", "@import", "<link"] {
        let found = page.replace("http://www.w3.org/2000/svg", "").contains(outside);
        assert!(!found, "{outside}");
    }
    assert!(page.contains("<title>Board 1 of 1, 100 x 100 mm</title>") && page.contains("<desc>"));
    assert_eq!(page.matches("class=\"label\"").count(), 2);
}
