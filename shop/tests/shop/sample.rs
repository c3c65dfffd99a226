// The sample order through the program itself, in a pipe: its output and drawing are the stored ones, with and
// without turning, in time.
use crate::drawings::{shown, Shown};
use crate::scratch::{program, shop, Scratch};
use std::path::Path;
use std::time::{Duration, Instant};

/// The time in which the sample must be planned; a busy machine gets three tries.
const LIMIT: Duration = Duration::from_secs(10);

/// What the program prints on the sample, and how long it took.
fn printed(words: &[&str]) -> (String, Duration) {
    let start = Instant::now();
    let sample = concat!(env!("CARGO_MANIFEST_DIR"), "/../samples/wardrobe.csv");
    let text = program(&[&[sample], words].concat());
    (text, start.elapsed())
}

fn stored(file: &str) -> String {
    let path = Path::new(env!("CARGO_MANIFEST_DIR")).join(file);
    std::fs::read_to_string(path).expect("a stored output")
}

#[test]
fn the_sample_is_planned_in_time() {
    let scratch = Scratch::new("sample");
    let [svg, json, stamp] = ["plan.svg", "json", "stamp"].map(|kind| scratch.path(kind));
    let words = ["--svg", &svg, "--json", &json, "--stamp", &stamp];
    let (text, mut took) = printed(&words);
    assert_eq!(text, stored("tests/wardrobe.out"));
    for _ in 0..2 {
        if took >= LIMIT {
            took = printed(&words).1;
        }
    }
    assert!(took < LIMIT, "{took:?}");
    for (index, drawing) in scratch.drawings().iter().enumerate() {
        let file = format!("docs/pictures/wardrobe-{}.svg", index + 1);
        assert!(*drawing == stored(&format!("../{file}")), "{file} is not the sample's drawing");
    }
    shown(&scratch.drawings()).iter().for_each(Shown::replay);
    assert_eq!(shop(&["recheck", &stamp]).expect("a stamp"), text);
    println!("the sample took {took:?}");
}

#[test]
fn the_sample_is_planned_with_turning() {
    let scratch = Scratch::new("turned");
    let svg = scratch.path("plan.svg");
    let (text, took) = printed(&["--turning", "yes", "--svg", &svg]);
    assert_eq!(text, stored("tests/wardrobe-turned.out"));
    shown(&scratch.drawings()).iter().for_each(Shown::replay);
    println!("the sample with turning took {took:?}");
}
