//! The forms of `keys` (docs/PROGRAM.md) that read requests, a question or a sheet, or write a sheet: what a run has to write.

use std::collections::BTreeMap;
use std::path::Path;
use std::{fs, io, str};

use crate::answer::{answer, numbers, say_refused};
use crate::gas::Charge;
use crate::inverse::PLACES;
use crate::refusal::Refusal;
use crate::sheet;
use crate::walk::{printed, walk, Lent, Outcome, State};

/// A run: its words, its standard input and how that is handed over, and the files of the folder that it is run in.
pub struct Run {
    pub words: Vec<String>,
    pub input: Vec<u8>,
    pub pieces: Option<Pieces>,
    pub files: BTreeMap<String, Vec<u8>>,
}

/// How an input is handed over through a pipe: in pieces of these lengths, each once the one before is taken, and the rest as one last
/// piece. Where it stays open the program has to end by itself.
#[derive(Clone, Debug, PartialEq, Eq)]
pub struct Pieces {
    pub lengths: Vec<usize>,
    pub stays_open: bool,
}

/// The last line of the file `pieces` of an input that stays open.
const OPEN: &str = "open";

/// What a run writes to standard output and to standard error.
#[derive(Debug, PartialEq, Eq)]
pub struct Written {
    pub output: String,
    pub error: String,
}

/// The sheet behind a run: its list or the refusal of its text, and what standard error says of the text.
struct Given {
    list: Result<Vec<u32>, Refusal>,
    said: String,
}

impl Run {
    pub fn new(words: &[&str], input: impl Into<Vec<u8>>) -> Run {
        let words = words.iter().map(|word| word.to_string()).collect();
        Run { words, input: input.into(), pieces: None, files: BTreeMap::new() }
    }

    /// The run with one more file beside it.
    pub fn with(mut self, name: &str, bytes: Vec<u8>) -> Run {
        self.files.insert(name.to_string(), bytes);
        self
    }

    /// The run with its input handed over in pieces.
    pub fn handed(mut self, pieces: Pieces) -> Run {
        self.pieces = Some(pieces);
        self
    }

    /// The run that a folder has: `args` with a word a line, `stdin`, `pieces`, and `data/`; what is not there is empty.
    pub fn load(folder: &Path) -> io::Result<Run> {
        let args = held(&folder.join("args"))?.unwrap_or_default();
        let words: Vec<&str> = text_of(&args).lines().collect();
        let mut run = Run::new(&words, held(&folder.join("stdin"))?.unwrap_or_default());
        run.pieces = held(&folder.join("pieces"))?.map(|file| Pieces::of(text_of(&file)));
        if folder.join("data").is_dir() {
            for file in fs::read_dir(folder.join("data"))? {
                let file = file?;
                let name = file.file_name().to_string_lossy().into_owned();
                run.files.insert(name, fs::read(file.path())?);
            }
        }
        Ok(run)
    }

    /// Writes the run into a folder, with what it has to write as `stdout` and `stderr`.
    pub fn save(&self, folder: &Path) -> io::Result<()> {
        let Written { output, error } = self.written();
        let args: String = self.words.iter().map(|word| format!("{word}\n")).collect();
        let pieces = self.pieces.as_ref().map(Pieces::file);
        fs::create_dir_all(folder.join("data"))?;
        let texts = [("args", args), ("stdout", output), ("stderr", error)];
        for (name, text) in texts.into_iter().chain(pieces.map(|text| ("pieces", text))) {
            fs::write(folder.join(name), text)?;
        }
        fs::write(folder.join("stdin"), &self.input)?;
        for (name, bytes) in &self.files {
            fs::write(folder.join("data").join(name), bytes)?;
        }
        Ok(())
    }

    /// The input of a form that reads text alone.
    pub fn text(&self) -> &str {
        text_of(&self.input)
    }

    /// What the run has to write. Its words are one of the forms below.
    pub fn written(&self) -> Written {
        let words: Vec<&str> = self.words.iter().map(String::as_str).collect();
        assert!(!self.waits_forever(), "{words:?} is not decided by its input, which stays open");
        if let ["sheet", file @ ..] = &words[..] {
            return verdict(Given::of(self.judged(file)));
        }
        let (form, sheet) = match words[..] {
            [ref form @ .., "--sheet", name] => (form, Given::of(&self.files[name])),
            _ => (&words[..], Given::built_in()),
        };
        match form {
            ["ask"] => ask(self.text(), sheet),
            ["walk"] => walk_page(self.text(), sheet),
            ["walk", name] => walk_page(&String::from_utf8_lossy(&self.files[*name]), sheet),
            ["write"] => sheet_text(sheet),
            _ => panic!("{words:?} is no form whose output is made here"),
        }
    }

    /// The sheet that `keys sheet` judges: that of its file, or the one on standard input.
    fn judged(&self, file: &[&str]) -> &[u8] {
        match file {
            [] => &self.input,
            [name] => &self.files[*name],
            _ => panic!("sheet {file:?} is no form"),
        }
    }

    /// Whether the input stays open and a good sheet could follow it.
    fn waits_forever(&self) -> bool {
        let stays_open = self.pieces.as_ref().is_some_and(|pieces| pieces.stays_open);
        stays_open && sheet::first_bad_byte(&self.input).is_none()
    }
}

impl Pieces {
    /// What the file of a run has: a length a line.
    fn of(file: &str) -> Pieces {
        let (lengths, open): (Vec<&str>, Vec<&str>) = file.lines().partition(|line| *line != OPEN);
        let length = |line: &str| line.parse().expect("a length of a piece");
        Pieces { lengths: lengths.into_iter().map(length).collect(), stays_open: !open.is_empty() }
    }

    fn file(&self) -> String {
        let lengths = self.lengths.iter().map(|length| format!("{length}\n"));
        lengths.chain(self.stays_open.then(|| format!("{OPEN}\n"))).collect()
    }
}

/// What a file holds, if it is there.
fn held(file: &Path) -> io::Result<Option<Vec<u8>>> {
    match fs::read(file) {
        Err(error) if error.kind() == io::ErrorKind::NotFound => Ok(None),
        read => read.map(Some),
    }
}

fn text_of(bytes: &[u8]) -> &str {
    str::from_utf8(bytes).expect("words, lengths, requests and questions are text")
}

impl Given {
    fn built_in() -> Given {
        Given { list: Ok(sheet::built_in()), said: String::new() }
    }

    /// The sheet of a text.
    fn of(text: &[u8]) -> Given {
        Given { list: read(text), said: returned_row(text) }
    }
}

/// The list of a sheet's text, or the refusal of its form or of its rows.
fn read(text: &[u8]) -> Result<Vec<u32>, Refusal> {
    let mut list = vec![0; sheet::PLACES];
    sheet::read(text, &mut list)?;
    sheet::judge(&list)?;
    Ok(list)
}

/// The line for a text that is refused for a carriage return: the first byte after which no good sheet can follow is one.
fn returned_row(text: &[u8]) -> String {
    match sheet::first_bad_byte(text) {
        Some(at) if text[at] == b'\r' => {
            let row = text[..at].iter().filter(|byte| **byte == b'\n').count();
            format!("row {row} has a carriage return; lines end in a line feed alone\n")
        }
        _ => String::new(),
    }
}

/// The lines of a text, each ended by one line feed; a carriage return before it is the line's.
fn lines_of(text: &str) -> impl Iterator<Item = &str> {
    text.split_terminator('\n')
}

/// An answer to each request line.
fn ask(requests: &str, sheet: Given) -> Written {
    let list = sheet.list.as_deref().map_err(|refusal| *refusal);
    let output = lines_of(requests).map(|line| answer(line, list) + "\n").collect();
    Written { output, error: sheet.said }
}

/// The numbers of a question's lines, or what standard error says of the first that is not four numbers.
fn question_lines(question: &str) -> Result<Vec<[i64; 4]>, String> {
    let mut rows = Vec::new();
    for (i, line) in lines_of(question).chain(question.is_empty().then_some("")).enumerate() {
        if line.contains('\r') {
            let said = "a carriage return; lines end in a line feed alone";
            return Err(format!("line {}: {said}\n", i + 1));
        }
        let four = numbers(&line.split('\t').collect::<Vec<&str>>());
        let four = four.and_then(|numbers| numbers.try_into().ok());
        let names = if i == 0 { "A, c, h, mK" } else { "c, h, calorific value, q" };
        let said = format!("expected four whole numbers parted by tabs: {names}");
        rows.push(four.ok_or(format!("line {}: {said}\n", i + 1))?);
    }
    Ok(rows)
}

/// The printed walk of a question: A, c, h, mK in the first line, a step in each further one. Nothing is printed where
/// a line is not four numbers.
fn walk_page(question: &str, sheet: Given) -> Written {
    let rows = match question_lines(question) {
        Ok(rows) => rows,
        Err(said) => return Written { output: String::new(), error: sheet.said + &said },
    };
    let [air, carbon, hydrogen, mk] = rows[0];
    let start = State { charge: Charge { air, carbon, hydrogen }, mk };
    let steps = rows[1..].concat();
    let n = rows.len() - 1;
    let (mut temperatures, mut rests, mut looks) = (vec![0; n], vec![0; n], vec![0; PLACES * n]);
    let lent = Lent { temperatures: &mut temperatures, rests: &mut rests, looks: &mut looks };
    let outcome = match sheet.list {
        Ok(list) => walk(start, &list, &steps, lent),
        Err(refusal) => Outcome::Refused(refusal),
    };
    let lent = Lent { temperatures: &mut temperatures, rests: &mut rests, looks: &mut looks };
    Written { output: printed(&outcome, &lent), error: sheet.said + &refused_for(&outcome) }
}

/// What a printed walk is refused for: the sheet, which alone has a row, the start or a step. A sheet that is to be written is refused
/// in the same words.
fn refused_for(outcome: &Outcome) -> String {
    match outcome {
        Outcome::Done(..) => String::new(),
        Outcome::Stopped(done, number, _) => {
            format!("step {} is refused with {number}\n", done + 1)
        }
        Outcome::Refused(Refusal { number, row: Some(row) }) => {
            format!("the sheet is refused with {number} at row {row}\n")
        }
        Outcome::Refused(Refusal { number, row: None }) => {
            format!("the start is refused with {number}\n")
        }
    }
}

fn verdict(sheet: Given) -> Written {
    let output = match sheet.list {
        Ok(_) => "accepted\n".to_string(),
        Err(refusal) => say_refused(&refusal) + "\n",
    };
    Written { output, error: sheet.said }
}

/// The text of the sheet and nothing else; of a refused one its refusal and nothing of a text.
fn sheet_text(sheet: Given) -> Written {
    match sheet.list {
        Ok(list) => Written { output: sheet::text(&list), error: sheet.said },
        Err(refusal) => Written {
            output: say_refused(&refusal) + "\n",
            error: sheet.said + &refused_for(&Outcome::Refused(refusal)),
        },
    }
}
