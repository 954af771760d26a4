//! Both programs against each other, with one worker, on the examples of the repository.

use std::process::Command;

/// What must be the same, but for time.
const NAMES: [&str; 7] = [
    "commodities",
    "phases",
    "verdict",
    "lower",
    "upper",
    "rows",
    "frac",
];

/// What a program tells of an example under those names.
fn told(program: &str, example: &str, words: &[&str]) -> Vec<String> {
    let file = format!(
        "{}/../../examples/{example}.net",
        env!("CARGO_MANIFEST_DIR")
    );
    let run = Command::new(program)
        .arg(file)
        .args(["--workers", "1"])
        .args(words)
        .output()
        .expect("it starts");
    let line = String::from_utf8(run.stdout).expect("a text");
    let words: Vec<&str> = line.split_whitespace().collect();
    NAMES.iter().map(|name| value(&words, name)).collect()
}

/// What stands behind the name.
fn value(words: &[&str], name: &str) -> String {
    let at = words
        .iter()
        .position(|word| word == &name)
        .expect("the name");
    words[at + 1..]
        .iter()
        .take(if name == "frac" { 2 } else { 1 })
        .copied()
        .collect::<Vec<_>>()
        .join(" ")
}

fn agree(example: &str, words: &[&str]) {
    let plain = told(env!("CARGO_BIN_EXE_plain"), example, words);
    let tuned = told(
        env!("CARGO_BIN_EXE_tuned"),
        example,
        &[words, &["--trees", "0"]].concat(),
    );
    assert_eq!(plain, tuned, "{example} {words:?}");
}

#[test]
fn both_find_the_same() {
    for example in ["polska", "abilene", "nobel-us", "geant", "germany50", "ta2"] {
        agree(example, &[]);
    }
}

#[test]
fn both_find_the_same_by_single_commodities() {
    for example in ["polska", "geant", "germany50"] {
        agree(example, &["--groups", "0", "--phases", "60", "--gap", "0"]);
    }
}

#[test]
fn both_find_the_same_with_other_steps() {
    for step in ["1", "512", "65536", "1048576"] {
        agree(
            "germany50",
            &["--step", step, "--phases", "60", "--gap", "0"],
        );
    }
}

#[test]
fn single_additions_change_no_answer() {
    for example in ["polska", "geant", "germany50", "ta2"] {
        let words = ["--phases", "60", "--gap", "0"];
        let tuned = env!("CARGO_BIN_EXE_tuned");
        let gathered = told(tuned, example, &words);
        let single = told(tuned, example, &[&words[..], &["--single", "1"]].concat());
        assert_eq!(gathered, single, "{example}");
    }
}
