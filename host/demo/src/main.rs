//! Plays document 01's shift, or the commands of a script, on the linked drive.
//!
//!     demo [SCRIPT] [--image FILE]
//!
//! Ends with 0 if every answer is the documented one, 1 if one is not, 2 where it cannot start or go
//! on.

use demo::{image, play, shift, text, Map, Run};
use std::fs;
use std::io::{self, BufWriter, Write};
use std::path::{Path, PathBuf};
use std::process::ExitCode;

const USAGE: &str = "usage: demo [SCRIPT] [--image FILE]";

fn main() -> ExitCode {
    match run() {
        Ok(code) => code,
        Err(message) => {
            eprintln!("demo: {message}");
            ExitCode::from(2)
        }
    }
}

fn run() -> Result<ExitCode, String> {
    let (script, image_path) = arguments()?;
    let runs = match &script {
        None => shift::runs(),
        Some(path) => script::read(path)?.into_iter().map(Run::of_part).collect(),
    };
    let wrong = show(&runs, &image_path).map_err(|error| error.to_string())?;
    if script.is_some() {
        return Ok(ExitCode::SUCCESS);
    }
    let answers: usize = runs.iter().map(|run| run.lines.len()).sum();
    if wrong > 0 {
        eprintln!("demo: {wrong} of {answers} answers are not as document 01 says");
        return Ok(ExitCode::FAILURE);
    }
    writeln!(io::stdout(), "All {answers} answers are as document 01 says.")
        .map_err(|error| error.to_string())?;
    Ok(ExitCode::SUCCESS)
}

/// The script, if there is one, and where the image goes.
fn arguments() -> Result<(Option<PathBuf>, PathBuf), String> {
    let mut script = None;
    let mut image_path = PathBuf::from("disc.svg");
    let mut words = std::env::args_os().skip(1);
    while let Some(word) = words.next() {
        if word == "--image" {
            image_path = words.next().ok_or(USAGE)?.into();
        } else if script.is_none() && !word.to_string_lossy().starts_with('-') {
            script = Some(word.into());
        } else {
            return Err(USAGE.into());
        }
    }
    Ok((script, image_path))
}

/// Prints every run and writes the image. Gives how many answers are not as documented.
fn show(runs: &[Run], image_path: &Path) -> io::Result<usize> {
    let mut out = BufWriter::new(io::stdout().lock());
    let mut maps = Vec::new();
    let mut wrong = 0;
    for run in runs {
        let (disc, differing) = play(run, &mut out)?;
        wrong += differing;
        if run.mapped {
            maps.push(Map::of(&run.title, &disc));
        }
    }
    for map in &maps {
        text::print(&mut out, map)?;
    }
    let named = |error| io::Error::other(format!("{}: {error}", image_path.display()));
    fs::write(image_path, image(&maps)).map_err(named)?;
    writeln!(out, "\nThe map as an image: {}", image_path.display())?;
    out.flush()?;
    Ok(wrong)
}
