// Orders without fault: how they may be written, and what units and rounding make of them.
use shop::order::{read, text, Order};

fn order(text: &str) -> Order {
    read(text.as_bytes(), None).unwrap_or_else(|faults| panic!("{}\n{text}", faults[0]))
}

const HEAD: &str = "plate, 2440 x 1220\nname, length, width, count\n";

#[test]
fn an_order_may_be_written_in_many_ways() {
    let plain = order(
        "plate, 500 x 300\nsaw, kerf 3.2, unit 5\nname, length, width, count, price\n\
                       side, 72.5, 56, 2, 7\nSeite, 10, 10, 1\n",
    );
    let ways = [
        "\u{feff}PLATE, 500 × 300\r\nSaw, Unit 5, Kerf 3.2 mm\r\n\r\nName, Length, Width, Count, Price\r\n\
         side, 72.5, 56, 2, 7\r\nSeite, 10, 10, 1\r\n",
        "# comment\nturning, no, # grain\nsaw, unit 5, kerf 3.2\nplate, 500x300,,,,\n,,,\n\
         price, count, name, width, length\n7, 2, side, 56, 72.50\n, 1, Seite, 10, 10 # no comment",
        "plate\t500 x 300\nsaw\tkerf 3,2\tunit 5\nname\tlength\twidth\tcount\tprice\n\
         \"side\"\t72,5\t56\t2\t7\t\nSeite\t10\t10\t1",
        "plate,500 X 300\nsaw,\"kerf 3,2\",unit 5\nname,length,width,count,price\n\
         \"side\",\"72,5\",56,2,7\n\"Seite\" ,10,10,1,",
    ];
    assert_eq!(order(ways[0]), plain);
    assert_eq!(order(&ways[1].replace(" # no comment", "")), plain);
    assert_eq!(order(ways[2]), plain);
    assert_eq!(order(ways[3]), plain);
}

#[test]
fn names_are_kept() {
    let named = order(&format!("{HEAD}\"a, \"\"b\"\"\", 1, 1, 1\n棚 #2, 1, 1, 1\nplate, 1, 1, 1\n"));
    let names: Vec<_> = named.panels.iter().map(|piece| piece.name.as_str()).collect();
    assert_eq!(names, ["a, \"b\"", "棚 #2", "plate"]);
}

#[test]
fn lengths_are_read_as_written() {
    let exact = order(
        "plate, 2444.9 x 1220\nsaw, kerf 3.2, unit 5\nturning, yes\nname, length, width, count, price\n\
         a, 720.001, 560, 2\nb, 720, 564.9, 255, 9\n",
    );
    assert_eq!((exact.plates[0].sides(), exact.kerf()), ([2_444_900, 1_220_000], 3_200));
    let panels: Vec<_> = exact.panels.iter().map(|p| (p.sides(), p.count, p.price, p.turns)).collect();
    assert_eq!(panels, [([720_001, 560_000], 2, None, true), ([720_000, 564_900], 255, Some(9), true)]);
    let kept = read(b"plate, 9 x 9\nturning, yes\nname, length, width, count\na, 1, 1, 1", Some(false));
    assert!(!kept.expect("no fault").panels[0].turns);
}

#[test]
fn the_stock_is_read() {
    let stock = order(
        "plate, 2440 x 1220, 5, cost 100\nboard, 2800 x 2070, cost 185\noffcut, 1180 x 610\noffcut, 600 x 500, 3\n\
         trim, 10\nstages, 3\nsaw, kerf 4\nname, length, width, count, turn\na, 100, 90, 1, yes\nb, 100, 90, 1, no\n\
         c, 100, 90, 1\n",
    );
    let plates: Vec<_> = stock.plates.iter().map(|p| (p.sides(), p.count, p.cost, p.offcut)).collect();
    assert_eq!(
        plates,
        [
            ([2_440_000, 1_220_000], Some(5), 100, false),
            ([2_800_000, 2_070_000], None, 185, false),
            ([1_180_000, 610_000], Some(1), 0, true),
            ([600_000, 500_000], Some(3), 0, true),
        ]
    );
    assert_eq!((stock.trim.thousandths(), stock.stages), (10_000, Some(3)));
    assert_eq!(stock.usable(&stock.plates[0]), [2_420_000, 1_200_000]);
    assert_eq!(stock.usable(&stock.plates[2]), [1_180_000, 610_000]);
    let turns: Vec<bool> = stock.panels.iter().map(|panel| panel.turns).collect();
    assert_eq!(turns, [true, false, false]);
    assert_eq!(order(&text(&stock)), stock);
}
