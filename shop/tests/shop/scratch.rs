// A folder of its own for a test's files, and the command run on them, in the test or as a program.
use crate::drawings;
use crate::replay::{from_document, from_list, Ordered};
use shop::commands::{run, Done};
use shop::json::{read, Value};
use shop::options::Options;
use std::fs;
use std::path::{Path, PathBuf};
use std::process::Command;

pub struct Scratch(PathBuf);

impl Scratch {
    pub fn new(name: &str) -> Scratch {
        let folder = Path::new(env!("CARGO_TARGET_TMPDIR")).join(name);
        _ = fs::remove_dir_all(&folder);
        fs::create_dir_all(&folder).expect("a folder for a test");
        Scratch(folder)
    }

    pub fn path(&self, file: &str) -> String {
        self.0.join(file).to_str().expect("a path in UTF-8").to_string()
    }

    pub fn write(&self, file: &str, bytes: impl AsRef<[u8]>) -> String {
        let path = self.path(file);
        fs::write(&path, bytes).expect("a file of a test");
        path
    }

    pub fn read(&self, file: &str) -> String {
        fs::read_to_string(self.path(file)).expect("a file that was written")
    }

    pub fn document(&self) -> Value {
        read(&self.read("plan.json")).expect("JSON")
    }

    /// The drawings of the last plan: `plan.svg` of one board, and else one for each, numbered.
    pub fn drawings(&self) -> Vec<String> {
        let numbered = (1..).map(|number| format!("plan-{number}.svg"));
        let files = ["plan.svg".to_string()].into_iter().filter(|file| self.has(file));
        files.chain(numbered.take_while(|file| self.has(file))).map(|file| self.read(&file)).collect()
    }

    fn has(&self, file: &str) -> bool {
        Path::new(&self.path(file)).exists()
    }

    /// Takes the drawings of an earlier plan away.
    fn clear(&self) {
        for entry in fs::read_dir(&self.0).expect("the test's folder").flatten() {
            if entry.path().extension().is_some_and(|ending| ending == "svg") {
                fs::remove_file(entry.path()).expect("a drawing");
            }
        }
    }

    /// Plans an order and files everything as `plan.svg`, `plan.json` and `plan.stamp`.
    pub fn plan(&self, order: &str, words: &[&str]) -> Result<String, String> {
        self.clear();
        let files = ["svg", "json", "stamp"].map(|kind| self.path(&format!("plan.{kind}")));
        let [svg, json, stamp] = &files;
        shop(&[&[order, "--svg", svg, "--json", json, "--stamp", stamp], words].concat())
    }

    /// Plans an order, replays the plan from document, list and drawing, and checks and certifies it again: all say
    /// the same.
    pub fn planned(&self, text: &str, words: &[&str]) -> String {
        let order = self.write("order.csv", text);
        let summary = self.plan(&order, words).unwrap_or_else(|wrong| panic!("{wrong}\n{text}"));
        let ordered = Ordered::read(text);
        let document = from_document(&self.document(), &ordered);
        let list = from_list(&summary, &ordered);
        assert_eq!(document, list, "{text}\n{summary}");
        assert_eq!(document, drawings::replayed(&self.drawings(), &ordered), "{text}\n{summary}");
        let checked = shop(&["check", &order, &self.path("plan.json"), "--seconds", "0"]).expect("it passes");
        assert_eq!(checked, summary);
        let again = shop(&["recheck", &self.path("plan.stamp")]).expect("a stamp");
        assert_eq!(again, summary);
        summary
    }
}

/// The command with these words.
pub fn shop(words: &[&str]) -> Result<String, String> {
    let options =
        Options::read(words.iter().map(|word| word.to_string())).map_err(|wrong| wrong.to_string())?;
    let Done { text, wrong, .. } = run(&options).map_err(|wrong| wrong.to_string())?;
    match wrong.first() {
        Some(wrong) => Err(wrong.to_string()),
        None => Ok(text),
    }
}

/// What the program itself prints with these words, in a pipe.
pub fn program(words: &[&str]) -> String {
    let output = Command::new(env!("CARGO_BIN_EXE_shop")).args(words).output();
    let output = output.expect("the program runs");
    assert_eq!(String::from_utf8_lossy(&output.stderr), "", "no progress in a pipe");
    assert!(output.status.success());
    String::from_utf8(output.stdout).expect("UTF-8")
}
