//! The files that are stored: the input and output of `trial_ask`, and what the forms under tests/forms/ and the worked
//! examples under docs/examples/ have to write to the input that stands there.

use std::fs;
use std::path::Path;

use crate::program::{Run, Written};
use crate::trials::ask;

/// The forms whose output is made; what the others write is in docs/PROGRAM.md and docs/FAILURES.md.
const FORMS: [&str; 18] = [
    "ask",
    "ask-refused",
    "ask-return",
    "sheet",
    "sheet-refused",
    "sheet-stdin",
    "sheet-stdin-open",
    "sheet-stdin-refused",
    "sheet-stdin-unfinished",
    "walk",
    "walk-bad",
    "walk-file",
    "walk-refused",
    "walk-return",
    "walk-start",
    "write",
    "write-file",
    "write-refused",
];

/// The worked examples: their folder, the form, the file of the input and that of the output.
const EXAMPLES: [(&str, &str, &str, &str); 6] = [
    ("parts", "ask", "requests.tsv", "answers.tsv"),
    ("heat", "ask", "requests.tsv", "answers.tsv"),
    ("icing", "ask", "requests.tsv", "answers.tsv"),
    ("windows", "ask", "requests.tsv", "answers.tsv"),
    ("ten-stages", "walk", "question.tsv", "walk.tsv"),
    ("ten-stages", "ask", "requests.tsv", "answers.tsv"),
];

/// Each stored file under the project's folder: its path and its text.
pub fn files(dir: &Path) -> Result<Vec<(String, String)>, String> {
    let mut files = trial_ask();
    for name in FORMS {
        let path = format!("tests/forms/{name}");
        let run = Run::load(&dir.join(&path)).map_err(|error| format!("{path}: {error}"))?;
        let Written { output, error } = run.written();
        let written = [(format!("{path}/stdout"), output), (format!("{path}/stderr"), error)];
        files.extend(written.into_iter().filter(|(_, text)| !text.is_empty()));
    }
    for (name, form, given, told) in EXAMPLES {
        let path = format!("docs/examples/{name}");
        let input = fs::read_to_string(dir.join(&path).join(given));
        let input = input.map_err(|error| format!("{path}/{given}: {error}"))?;
        files.push((format!("{path}/{told}"), Run::new(&[form], input).written().output));
    }
    Ok(files)
}

/// Every row, both sides of every limit, and requests of every kind, over the built-in sheet.
pub fn trial_ask() -> Vec<(String, String)> {
    let requests: String = ask::requests().iter().map(|line| format!("{line}\n")).collect();
    let run = Run::new(&["ask"], requests);
    let Written { output, error } = run.written();
    assert!(error.is_empty() && !output.lines().any(|answer| answer.starts_with("error")));
    let file = |name: &str, text: String| (format!("crates/trial_ask/{name}"), text);
    vec![file("stdin", run.text().to_string()), file("stdout", output)]
}
