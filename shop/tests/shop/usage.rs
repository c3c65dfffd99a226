// The usage, where it is asked for and where the command line is wrong, by the program itself.
use crate::scratch::program;
use shop::options::USAGE;
use std::process::Command;

/// Expects the program to end with 2, nothing printed, and this before the usage on the other stream.
fn refused(words: &[&str], wrong: &str) {
    let output = Command::new(env!("CARGO_BIN_EXE_shop")).args(words).output();
    let output = output.expect("the program runs");
    assert_eq!((output.status.code(), output.stdout.len()), (Some(2), 0), "{words:?}");
    assert_eq!(String::from_utf8_lossy(&output.stderr), format!("{wrong}\n{USAGE}\n"));
}

#[test]
fn the_usage_is_printed_where_it_is_asked_for() {
    for words in [&["--help"][..], &["-h"], &["check", "--help"], &["order.csv", "--seconds", "1", "--help"]]
    {
        assert_eq!(program(words), format!("{USAGE}\n"));
    }
}

#[test]
fn wrong_words_are_answered_with_the_usage() {
    refused(&[], "one order is needed");
    refused(&["a.csv", "b.csv"], "one order is needed");
    refused(&["check", "a.csv"], "check has other files than it needs");
    refused(&["a.csv", "--svg"], "--svg needs a value");
    refused(&["a.csv", "--svg=b", "--svg", "c"], "--svg is said twice");
    refused(&["a.csv", "-x"], "there is no option -x");
    refused(&["a.csv", "--one=yes"], "--one takes no value");
    refused(&["check", "a.csv", "b.json", "--json", "c"], "check does not use --json");
    refused(&["recheck", "a", "--seconds=5"], "recheck does not use --seconds");
    refused(&["a.csv", "--colour", "red"], "there is no option --colour");
    refused(&["a.csv", "--memory", "1M"], "--memory needs a size of at least 16M, as 512M or 2G, and not 1M");
}

#[test]
fn the_version_is_said() {
    assert_eq!(program(&["--version"]), format!("plan {}\n", env!("CARGO_PKG_VERSION")));
}
