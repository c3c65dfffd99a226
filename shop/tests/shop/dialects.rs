// Orders as spreadsheets write them: separators, decimal commas, codes of text, headings, repeated names, inches
// and words for the grain.
use shop::order::{read, text, Fault, Order};

const HEAD: &str = "plate, 2440 x 1220\nsaw, kerf 3.2\nname, length, width, count\n";
const PLAIN: &str = "plate, 2440.5 x 1220\nsaw, kerf 3.2\ntrim, 10.5\nname, length, width, count, price\n\
                     Tür, 720.5, 560, 2, 7\nside, 99.25, 10, 1\n";
const SEMICOLONS: &str = "sep=;\r\nplate;2440,5 x 1220;;;\r\nsaw;kerf 3,2;;;\r\ntrim;10,5;;;\r\n\
                          name;length;width;count;price\r\nTür;720,5;560;2;7\r\nside;99,25;10;1;\r\n";

fn order(bytes: impl AsRef<[u8]>) -> Order {
    read(bytes.as_ref(), None).unwrap_or_else(|faults| panic!("{}", faults[0]))
}

fn fault(bytes: impl AsRef<[u8]>) -> Fault {
    read(bytes.as_ref(), None).expect_err("a fault").swap_remove(0)
}

/// Expects the first fault of an order in this column, with these words.
fn refused(text: &str, column: usize, expected: &str, found: &str) {
    let fault = fault(text);
    assert_eq!(fault.column, column, "{fault}\n{text}");
    assert!(fault.expected.contains(expected) && fault.found == found, "{fault}\n{text}");
}

fn sides(order: &Order) -> Vec<[u32; 2]> {
    order.panels.iter().map(|panel| panel.sides()).collect()
}

fn names(order: &Order) -> Vec<&str> {
    order.panels.iter().map(|panel| panel.name.as_str()).collect()
}

#[test]
fn a_line_is_separated_by_tabs_or_semicolons_or_commas() {
    let plain = order(PLAIN);
    assert!(plain.notices.is_empty());
    assert_eq!(order(SEMICOLONS), plain);
    assert_eq!(order(SEMICOLONS.replace(';', "\t")), plain);
    assert_eq!(order(SEMICOLONS.replace("side;", "\"side\" ; ")), plain);
    let mixed = order(format!(
        "# a; b\n{HEAD}\"a; b\", 1, 2, 3, # c; d\n\"c\td; \"\"e\"\"\", 1, 2, 3\nf, g;1,5;2;3\n\"h;i\"\t1,5\t2\t3"
    ));
    assert_eq!(names(&mixed), ["a; b", "c\td; \"e\"", "f, g", "h;i"]);
    assert_eq!(sides(&mixed)[2], [1_500, 2_000]);
    assert_eq!(order(text(&mixed)), mixed);
}

#[test]
fn a_comma_that_may_part_thousands_is_refused() {
    refused(&format!("{HEAD}a, \"1,200\", 5, 1"), 4, "1200 or 1.200, as a comma", "\"1,200\"");
    refused(&format!("{HEAD}a;1,200;5;1"), 3, "1200 or 1.200, as a comma", "\"1,200\"");
    refused(&format!("{HEAD}a\t1,200 mm\t5\t1"), 3, "1200 mm or 1.200 mm", "\"1,200 mm\"");
    refused("plate; 2,440 x 1220", 8, "2440 x 1220 or 2.440 x 1220", "\"2,440 x 1220\"");
    refused("saw, \"kerf 3,200\"", 6, "kerf 3200 or kerf 3.200", "\"kerf 3,200\"");
    refused(&format!("{HEAD}a;1,200,5;5;1"), 3, "a length above 0", "\"1,200,5\"");
    let clear = order(format!("{HEAD}a;1234,125;0,125;1\nb, 1.125, \"1,25\", 1\nc;1.125;1,2;1"));
    assert_eq!(sides(&clear), [[1_234_125, 125], [1_125, 1_250], [1_125, 1_200]][..]);
}

#[test]
fn a_decimal_comma_without_quotes_is_noticed() {
    let cure = "a decimal comma needs quotes around the number, or ; between the cells";
    refused(&format!("{HEAD}side, 720,5, 560, 2"), 7, cure, "\"720,5\"");
    refused(&format!("{HEAD}side,720,5,560,2"), 16, cure, "\"2\"");
    let priced = HEAD.replace("count", "count, price");
    refused(&format!("{priced}side, 720,5, 560, 2"), 7, cure, "\"720,5\"");
    refused(&format!("{priced}side, 720, 560,5, 2"), 12, cure, "\"560,5\"");
    refused("saw, kerf 3,2", 6, cure, "\"kerf 3,2\"");
    refused("saw,kerf 3,2", 12, cure, "\"2\"");
    refused("trim,10,5", 9, cure, "\"5\"");
    refused("plate, 2440 x 1220,5", 8, cure, "\"2440 x 1220,5\"");
    refused("plate,2440,5 x 1220", 7, cure, "\"2440\"");
    let tight = order(format!("{priced}a, 720,560, 2\nb,720,560,2,9\nc, 720, 560,2\n"));
    assert_eq!(sides(&tight), [[720_000, 560_000]; 3]);
    assert_eq!(order("plate,99 x 99,5\nname,length,width,count\na,1,1,1").plates[0].count, Some(5));
}

#[test]
fn codes_of_text_are_recognised() {
    let plain = order(PLAIN);
    assert_eq!(order(format!("\u{feff}{PLAIN}")), plain);
    let units: Vec<u16> = "\u{feff}".encode_utf16().chain(SEMICOLONS.encode_utf16()).collect();
    let little: Vec<u8> = units.iter().flat_map(|unit| unit.to_le_bytes()).collect();
    let big: Vec<u8> = units.iter().flat_map(|unit| unit.to_be_bytes()).collect();
    assert_eq!(order(&little), plain);
    assert_eq!(order(&big), plain);
    let half = fault(&little[..little.len() - 1]);
    assert!(half.expected.contains("UTF-16") && half.line == 7, "{half}");
    let zero = fault(&little[2..]);
    assert_eq!((zero.line, zero.column, zero.found.as_str()), (1, 2, "a zero byte"));
    assert!(zero.expected.contains("UTF-16 with its mark"), "{zero}");
    assert_eq!(fault(b"PK\x03\x04\x14\x00").found, "a workbook");
    let marked = fault(b"\xef\xbb\xbfplate, 9 x 9\nname\xfc");
    assert!((marked.line, marked.column) == (2, 5) && marked.expected.contains("UTF-8"), "{marked}");
}

#[test]
fn windows_1252_is_read_with_a_notice() {
    let latin: Vec<u8> = PLAIN.chars().map(|c| u8::try_from(c).expect("Latin-1")).collect();
    let read = order(&latin);
    assert_eq!(read.panels, order(PLAIN).panels);
    assert_eq!(read.notices, ["the file is not in UTF-8: it is read as Windows-1252, with a cell \"Tür\""]);
    let high: Vec<u8> = (0x80..=0x9f).filter(|byte| ![0x81, 0x8d, 0x8f, 0x90, 0x9d].contains(byte)).collect();
    let windows = order([HEAD.as_bytes(), b"a", &high, b", 1, 1, 1"].concat());
    assert_eq!(names(&windows), ["a€‚ƒ„…†‡ˆ‰Š‹ŒŽ‘’“”•–—˜™š›œžŸ"]);
    let none = fault(b"plate, 5 x 5\nab\x81c");
    assert_eq!((none.line, none.column, none.found.as_str()), (2, 3, "a byte of another code"));
}

#[test]
fn headings_of_cut_lists_are_mapped() {
    for heading in [
        "Description, Length, Width, Qty, Price, Turn",
        "PART, l, w, Quantity, price, Rotate",
        "Name, L (mm), Width [mm], Pieces, PRICE, turn",
        "part, Length mm, W., pcs, Price:, TURN",
    ] {
        let read = order(format!("plate, 99 x 99\nsaw, kerf 3\n{heading}\na, 5, 4, 3, 2, yes\n"));
        let panel = &read.panels[0];
        assert_eq!((panel.sides(), panel.count), ([5_000, 4_000], 3), "{heading}");
        assert_eq!((panel.price, panel.turns, read.notices.len()), (Some(2), true, 0), "{heading}");
    }
    let read = order(
        "plate;99 x 99\nsaw;kerf 3\nPart;Description;Material;L;W;;Thickness;Qty;Notes\n\
         a;left;oak, white;5;4;;18;3;none\nb;right;oak;5;4;;;1",
    );
    assert_eq!((names(&read), sides(&read)), (vec!["a", "b"], vec![[5_000, 4_000]; 2]));
    let unread = "Description, Material, number 6 without a heading, Thickness, Notes";
    assert_eq!(read.notices, [format!("columns that are not read: {unread}")]);
    refused("Name;Länge", 11, "a column length beside those that are not read, Länge", "the line's end");
    refused(
        "Name;Länge;Width;Count",
        23,
        "a column length beside those that are not read, Länge",
        "the line's end",
    );
}

#[test]
fn repeated_names_are_numbered() {
    let lines: Vec<String> = ["shelf", "side", "shelf", "shelf (2)", "shelf", "side", "shelf (2)"]
        .map(|n| format!("{n}, 9, 9, 300\n"))
        .into();
    let read = order(format!("{HEAD}{}", lines.concat()));
    let distinct = ["shelf", "side", "shelf (3)", "shelf (2)", "shelf (4)", "side (2)", "shelf (2) (2)"];
    assert_eq!(names(&read), distinct);
    let shown = "\"shelf (3)\" in line 6, \"shelf (4)\" in line 8, \"side (2)\" in line 9 and 1 more";
    assert_eq!(read.notices, [format!("repeated names are numbered: {shown}")]);
    assert_eq!(order(text(&read)).panels, read.panels);
}

#[test]
fn an_order_without_a_kerf_has_a_notice() {
    for saw in ["", "saw\n", "saw, unit 5\n"] {
        let read = order(format!("plate, 9 x 9\n{saw}name, length, width, count\na, 1, 1, 1"));
        assert_eq!(read.notices, ["no saw line with a kerf: the blade is taken to have no width"]);
    }
    assert!(order("plate, 9 x 9\nsaw, kerf 0\nname, length, width, count\na, 1, 1, 1").notices.is_empty());
}

#[test]
fn lengths_may_be_inches() {
    let lengths = [
        ("30\"", 762_000),
        ("23 1/2\"", 596_900),
        ("23-1/2 in", 596_900),
        ("23.5 in", 596_900),
        ("23.5 Inches", 596_900),
        ("3/4\"", 19_050),
        (".75 inch", 19_050),
        ("0.0625 in.", 1_588),
        ("1/64”", 397),
        ("1 1/128″", 25_598),
        ("1/3''", 8_467),
    ];
    for (length, thousandths) in lengths {
        let cell = format!("\"{}\"", length.replace('"', "\"\""));
        let read =
            order(format!("{HEAD}a, {length}, {cell}, 1\nb;{cell};{length};1\nc\t{length}\t{cell}\t1"));
        assert_eq!(sides(&read), [[thousandths; 2]; 3], "{length}");
    }
    for length in
        ["1/2", "23 1/2", "1/0\"", "3/2\"", "1 /2\"", "8'", "0\"", "9999\"", "\"\"\"\"", "1.1234567 in"]
    {
        assert!(
            fault(format!("{HEAD}a, {length}, 1, 1")).expected.starts_with("a length above 0"),
            "{length}"
        );
    }
    let plate =
        |plate: &str| order(format!("plate, {plate}\nsaw, kerf 1/8\"\n{}", &HEAD[33..]) + "a, 1, 1, 1");
    for text in [
        "96\" x 48\"",
        "\"96\"\" x 48\"\"\"",
        "96 x 48 in",
        "96 in x 48\"",
        "2438.4 x 1219.2 mm",
        "96\" x 1219.2mm",
    ] {
        assert_eq!(plate(text).plates[0].sides(), [2_438_400, 1_219_200], "{text}");
    }
    assert_eq!(plate("9 x 9").kerf(), 3_175);
}

#[test]
fn a_column_may_say_what_turns_or_has_a_grain() {
    let turns = |heading: &str, word: &str| {
        let head = HEAD.replace("count", &format!("count, {heading}"));
        read(format!("{head}a, 1, 1, 1, {word}\n").as_bytes(), None).map(|order| order.panels[0].turns)
    };
    for word in ["yes", "Y", "x", "1", "TRUE"] {
        assert_eq!((turns("Turn", word), turns("Grain", word)), (Ok(true), Ok(false)), "{word}");
    }
    for word in ["no", "n", "0", "false", "none"] {
        assert_eq!((turns("Rotate", word), turns("Grain", word)), (Ok(false), Ok(true)), "{word}");
    }
    for heading in ["Turn", "Grain"] {
        assert_eq!((turns(heading, "With Grain"), turns(heading, "lengthwise")), (Ok(false), Ok(false)));
        assert_eq!((turns(heading, "no grain"), turns(heading, "any")), (Ok(true), Ok(true)));
        assert_eq!(turns(heading, ""), Ok(false));
        assert!(turns(heading, "across").is_err());
    }
}
