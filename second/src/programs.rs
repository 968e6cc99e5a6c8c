//! What the programs have in common: they answer standard input on standard output, and some of them whole folders.

use std::env;
use std::ffi::OsStr;
use std::fs;
use std::io::{self, Read, Write};
use std::path::{Path, PathBuf};

/// Answers the log on standard input, or each NAME.log of the folder that the first argument names, to NAME.ENDING.
pub fn answer_logs(ending: &str, answer: impl Fn(&[u8]) -> String) -> Result<(), String> {
    answer_files("log", ending, |log| (answer(log), Ok(())))
}

/// Answers standard input, or each NAME.FROM of the folder that the first argument names, to NAME.TO. An answer may
/// come with a message: it is then all that can be said.
pub fn answer_files(
    from: &str,
    to: &str,
    answer: impl Fn(&[u8]) -> (String, Result<(), String>),
) -> Result<(), String> {
    let Some(folder) = env::args_os().nth(1) else {
        let (text, whole) = answer(&input()?);
        write(text.as_bytes())?;
        return whole;
    };
    for path in files_of(Path::new(&folder), from)? {
        let (text, whole) = answer(&read(&path)?);
        fs::write(path.with_extension(to), text).map_err(|error| error.to_string())?;
        whole.map_err(|message| format!("{}: {message}", path.display()))?;
    }
    Ok(())
}

/// Each NAME.ENDING of a folder, by name.
pub fn files_of(folder: &Path, ending: &str) -> Result<Vec<PathBuf>, String> {
    let paths: io::Result<Vec<PathBuf>> =
        fs::read_dir(folder).and_then(|entries| entries.map(|entry| Ok(entry?.path())).collect());
    let mut files = paths.map_err(|error| error.to_string())?;
    files.retain(|path| path.extension() == Some(OsStr::new(ending)));
    files.sort();
    Ok(files)
}

pub fn read(path: &Path) -> Result<Vec<u8>, String> {
    fs::read(path).map_err(|error| format!("{}: {error}", path.display()))
}

/// A program that plays a text: NAME answers it, NAME bytes writes its byte form.
pub fn answer_text(
    name: &str,
    answer: impl Fn(&str) -> Result<String, String>,
    byte_form: impl Fn(&str) -> Result<Vec<u8>, String>,
) -> Result<(), String> {
    let arguments: Vec<String> = env::args().skip(1).collect();
    let words: Vec<&str> = arguments.iter().map(String::as_str).collect();
    match words[..] {
        [] => write(answer(&text_of(input()?)?)?.as_bytes()),
        ["bytes"] => write(&byte_form(&text_of(input()?)?)?),
        _ => Err(format!("use: {name}, or {name} bytes")),
    }
}

pub fn input() -> Result<Vec<u8>, String> {
    let mut bytes = Vec::new();
    io::stdin().read_to_end(&mut bytes).map_err(|error| error.to_string())?;
    Ok(bytes)
}

pub fn text_of(bytes: Vec<u8>) -> Result<String, String> {
    String::from_utf8(bytes).map_err(|error| error.to_string())
}

pub fn write(output: &[u8]) -> Result<(), String> {
    io::stdout().write_all(output).map_err(|error| error.to_string())
}
