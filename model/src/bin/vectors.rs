//! Runs the files of folders of vectors through the model and compares with
//! what their `stdout` says. A folder's name says what it holds: `days`,
//! `calls`, or `texts` (whose files are those of the folder `days` beside it).

use model::record::Record;
use model::sheet::Sheet;
use model::{replay, statement, Refusal};
use std::fmt::Write as _;
use std::path::{Path, PathBuf};
use std::process::ExitCode;

fn main() -> ExitCode {
    let folders: Vec<PathBuf> = std::env::args_os().skip(1).map(PathBuf::from).collect();
    if folders.is_empty() {
        eprintln!("usage: vectors FOLDER.. (each named days, calls or texts)");
        return ExitCode::FAILURE;
    }
    let mut all_agree = true;
    for folder in &folders {
        match compare(folder) {
            Ok(files) => println!("{}: {files} files agree", folder.display()),
            Err(problem) => {
                println!("{}: {problem}", folder.display());
                all_agree = false;
            }
        }
    }
    if all_agree {
        ExitCode::SUCCESS
    } else {
        ExitCode::FAILURE
    }
}

/// The number of files, or the first difference.
fn compare(folder: &Path) -> Result<usize, String> {
    let folder = folder.canonicalize().map_err(|e| e.to_string())?;
    let name = folder.file_name().and_then(|name| name.to_str());
    let (data_folder, kind): (PathBuf, fn(&str, &[u8]) -> Vec<u8>) = match name {
        Some("days") => (folder.clone(), |_, text| statement::print(text)),
        Some("calls") => (folder.clone(), |_, text| replay::print(text)),
        Some("texts") => (folder.with_file_name("days"), readings),
        _ => return Err("the folder's name is not days, calls or texts".to_string()),
    };
    let with_names = name != Some("texts");
    let expected = read(&folder.join("stdout"))?;
    let mut files = 0;
    let mut printed = Vec::new();
    let mut ends = Vec::new();
    for file in names(&data_folder)? {
        let text = read(&data_folder.join("data").join(&file))?;
        if with_names {
            printed.extend_from_slice(file.as_bytes());
            printed.push(b'\n');
        }
        printed.extend(kind(&file, &text));
        ends.push((printed.len(), file));
        files += 1;
    }
    first_difference(&printed, &expected, &ends).map_or(Ok(files), Err)
}

/// The names of the files: those in `args`, otherwise the folder's, ascending.
fn names(folder: &Path) -> Result<Vec<String>, String> {
    if let Ok(args) = std::fs::read_to_string(folder.join("args")) {
        return Ok(args.lines().map(str::to_string).collect());
    }
    let entries = std::fs::read_dir(folder.join("data")).map_err(|e| e.to_string())?;
    let mut names: Vec<String> = entries
        .filter_map(|entry| entry.ok()?.file_name().into_string().ok())
        .collect();
    names.sort();
    Ok(names)
}

fn read(path: &Path) -> Result<Vec<u8>, String> {
    std::fs::read(path).map_err(|e| format!("{}: {e}", path.display()))
}

/// The first line that differs, with the file that it belongs to.
fn first_difference(printed: &[u8], expected: &[u8], ends: &[(usize, String)]) -> Option<String> {
    if printed == expected {
        return None;
    }
    let mut got = printed.split_inclusive(|&byte| byte == b'\n');
    let mut want = expected.split_inclusive(|&byte| byte == b'\n');
    let mut place = 0;
    let mut line = 1;
    loop {
        let (got, want) = (got.next(), want.next());
        if got != want {
            let show = |line: Option<&[u8]>| match line {
                Some(line) => format!("{:?}", String::from_utf8_lossy(line)),
                None => "the end".to_string(),
            };
            let file = ends.iter().find(|(end, _)| place < *end);
            return Some(format!(
                "differs at line {line} of stdout, file {}:\n  model    {}\n  expected {}",
                file.map_or("-", |(_, name)| name),
                show(got),
                show(want)
            ));
        }
        place += got.map_or(0, <[u8]>::len);
        line += 1;
    }
}

/// One line for each reading of a text: the sheet; records at each line behind
/// it that begins `hour=`, at the text's length, and one past it.
fn readings(file: &str, text: &[u8]) -> Vec<u8> {
    let mut out = String::new();
    let refused = |Refusal { number, line }| format!("refused {number} {line}");
    match Sheet::read(text) {
        Err(refusal) => writeln!(out, "{file} sheet {}", refused(refusal)).unwrap(),
        Ok((sheet, behind)) => {
            writeln!(out, "{file} sheet read {behind}").unwrap();
            let line_starts = (behind..text.len())
                .filter(|&place| text[place - 1] == b'\n' && text[place..].starts_with(b"hour="));
            for place in line_starts.chain([text.len(), text.len() + 1]) {
                match Record::read(text, place, &sheet) {
                    Ok((record, after)) => {
                        writeln!(
                            out,
                            "{file} record {place} read {after} hour {}",
                            record.hour
                        )
                    }
                    Err(refusal) => writeln!(out, "{file} record {place} {}", refused(refusal)),
                }
                .unwrap();
            }
        }
    }
    out.into_bytes()
}
