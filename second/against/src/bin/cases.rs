//! Runs the cases of a file, a line each, over the exported functions and over the second program, and compares what each gives with what its line says.
#![forbid(unsafe_code)]

use std::process::exit;

use against::cases::{read, Case, Line, Names, SIDES};

fn main() {
    let text = std::env::args().nth(1).and_then(|name| std::fs::read_to_string(name).ok());
    let text = text.unwrap_or_else(|| {
        eprintln!("usage: cases FILE");
        exit(2)
    });
    let (mut names, mut passed, mut failed) = (Names::new(), 0, 0);
    for line in text.lines() {
        let wrong = match read(line, &mut names) {
            Line::Nothing => continue,
            Line::Unreadable => Some(format!("UNREADABLE: {line}")),
            Line::Case(case) => wrong_with(&case),
        };
        match wrong {
            Some(wrong) => {
                failed += 1;
                println!("{wrong}");
            }
            None => passed += 1,
        }
    }
    println!("{passed} passed, {failed} failed");
    exit(i32::from(failed > 0 || passed == 0));
}

/// What is wrong with a case, if anything is, on either side.
fn wrong_with(case: &Case) -> Option<String> {
    SIDES.iter().find_map(|side| match side.outcome(case) {
        Some(outcome) if outcome == case.wanted => None,
        Some(outcome) => {
            Some(format!("WRONG: {}: {}: {}", case.title, side.name, outcome.shown(&case.wanted)))
        }
        None => Some(format!(
            "WRONG: {}: {}: no such operation, or bytes beside the buffer changed",
            case.title, side.name
        )),
    })
}
