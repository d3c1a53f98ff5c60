//! Reads a reservation sheet, writes a picture of its frame on standard output.

#![forbid(unsafe_code)]

use std::fs::File;
use std::io::{self, IsTerminal, Read, Write};
use std::process::{Command, ExitCode, Stdio};

use picture::{draw, NoPicture, Refused, Request, ADVICE, HELP, LONGEST_SHEET};

fn main() -> ExitCode {
    let words: Vec<String> = std::env::args_os()
        .skip(1)
        .map(|word| word.to_string_lossy().into_owned())
        .collect();
    match answer(&words) {
        Ok(()) => ExitCode::SUCCESS,
        Err(sentences) => {
            for sentence in sentences.lines() {
                // Where standard error is closed there is nobody left to tell.
                let _ = writeln!(io::stderr(), "picture: {sentence}");
            }
            ExitCode::from(2)
        }
    }
}

/// Writes the help or the picture that the words ask for. What is wrong is a sentence a line.
fn answer(words: &[String]) -> Result<(), String> {
    if matches!(words, [word] if word == "--help" || word == "-h") {
        return write(HELP);
    }
    let Request { picture, file } = Request::read(words)?;
    let text = match file {
        Some(name) => read_file(&name),
        None => read_input(),
    };
    let text = text?;
    let drawn = draw(picture, &text).map_err(|why| match why {
        NoPicture::Refused(refused) => explain(&text, refused),
        NoPicture::Missing(what) => what,
    });
    write(&drawn?)
}

/// What is wrong with a refused sheet, in the words of ./frame where their script is found.
fn explain(text: &[u8], refused: Refused) -> String {
    let plain = || format!("the sheet is refused: {refused}; {ADVICE}");
    sentences(text, refused).unwrap_or_else(plain)
}

/// What the script says that explains refusals, which ./picture names in the environment.
fn sentences(text: &[u8], refused: Refused) -> Option<String> {
    let mut script = Command::new(std::env::var_os("FRAME_BUILDER_EXPLAIN")?)
        .args(["-", &refused.to_string()])
        .stdin(Stdio::piped())
        .stdout(Stdio::piped())
        .stderr(Stdio::null())
        .spawn()
        .ok()?;
    // A script that fails may not read the sheet; its status tells.
    let _ = script.stdin.take()?.write_all(text);
    let output = script.wait_with_output().ok()?;
    let said = output.status.success() && !output.stdout.is_empty();
    said.then(|| String::from_utf8_lossy(&output.stdout).into_owned())
}

fn read_file(name: &str) -> Result<Vec<u8>, String> {
    let text = File::open(name).and_then(read_sheet);
    text.map_err(|error| format!("{name}: {error}; {ADVICE}"))
}

fn read_input() -> Result<Vec<u8>, String> {
    let input = io::stdin();
    if input.is_terminal() {
        let why = "a sheet is wanted, as a file or on standard input";
        return Err(format!("{why}; {ADVICE}"));
    }
    read_sheet(input).map_err(|error| format!("standard input: {error}; {ADVICE}"))
}

/// A sheet, up to a byte more than it can have.
fn read_sheet(from: impl Read) -> io::Result<Vec<u8>> {
    let mut text = Vec::new();
    from.take(LONGEST_SHEET as u64 + 1).read_to_end(&mut text)?;
    Ok(text)
}

fn write(text: &str) -> Result<(), String> {
    let mut output = io::stdout();
    output
        .write_all(text.as_bytes())
        .and_then(|()| output.flush())
        .map_err(|error| format!("standard output: {error}"))
}
