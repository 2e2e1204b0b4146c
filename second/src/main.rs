//! `second make DIR` writes the stored files under DIR; `second check DIR` says whether they are what it makes; `second runs SEED
//! DIR` writes the runs that are made from a seed, each into a folder of its own.

use std::path::Path;
use std::process::ExitCode;
use std::{env, fs, io};

use second::stored::files;
use second::trials::runs::runs;

fn main() -> ExitCode {
    let arguments: Vec<String> = env::args().skip(1).collect();
    let words: Vec<&str> = arguments.iter().map(String::as_str).collect();
    let done = match words[..] {
        ["make", dir] => make(Path::new(dir)),
        ["check", dir] => check(Path::new(dir)),
        ["runs", seed, dir] => make_runs(seed, Path::new(dir)),
        _ => Err("second make DIR, second check DIR, or second runs SEED DIR".to_string()),
    };
    match done {
        Ok(()) => ExitCode::SUCCESS,
        Err(message) => {
            eprintln!("{message}");
            ExitCode::FAILURE
        }
    }
}

fn make(dir: &Path) -> Result<(), String> {
    for (path, text) in files(dir)? {
        write(&dir.join(&path), &text).map_err(|error| format!("{path}: {error}"))?;
    }
    Ok(())
}

fn write(path: &Path, text: &str) -> io::Result<()> {
    fs::create_dir_all(path.parent().expect("a file stands in a folder"))?;
    fs::write(path, text)
}

/// Names the first stored file that is not what is made now.
fn check(dir: &Path) -> Result<(), String> {
    for (path, text) in files(dir)? {
        match fs::read(dir.join(&path)) {
            Ok(stored) if stored == text.as_bytes() => {}
            Ok(_) => return Err(format!("{path} is not what second makes")),
            Err(error) => return Err(format!("{path}: {error}")),
        }
    }
    Ok(())
}

fn make_runs(seed: &str, dir: &Path) -> Result<(), String> {
    let seed = seed.parse().map_err(|error| format!("{seed}: {error}"))?;
    for (name, run) in runs(seed) {
        run.save(&dir.join(&name)).map_err(|error| format!("{name}: {error}"))?;
    }
    Ok(())
}
