//! The proved code beside the unchanged Rust, and files made beside files copied: `bench [PREFIX..]` prints the tables (of the rows whose
//! keys start so), `bench --rows` and `bench --file-rows` the keys of the rows to count, `bench --count ROW N ours|rust|copy` runs one
//! side of a row N times (see `counts`).
mod count;
mod files;
mod measure;
mod ours;
mod rooms;
mod rows;
mod table;
mod theirs;

use files::FileRow;
use measure::{Measured, MeasuredFile};
use rows::Row;
use std::process::ExitCode;

/// The standard library takes the keys of FLURSYS's hash maps from here: fixed ones, so that counts repeat.
#[no_mangle]
pub extern "C" fn getrandom(buffer: *mut u8, length: usize, _flags: u32) -> isize {
    unsafe { std::ptr::write_bytes(buffer, 0x5a, length) };
    length as isize
}

fn main() -> ExitCode {
    let arguments: Vec<String> = std::env::args().skip(1).collect();
    let words: Vec<&str> = arguments.iter().map(String::as_str).collect();
    let result = match words[..] {
        ["--rows"] => {
            print_keys();
            Ok(())
        }
        ["--file-rows"] => {
            files::all().iter().for_each(|row| println!("{}", row.key()));
            Ok(())
        }
        ["--count", key, n, side] => count(key, n, side),
        _ => print_tables(&words),
    };
    match result {
        Ok(()) => ExitCode::SUCCESS,
        Err(why) => {
            eprintln!("bench: {why}");
            ExitCode::FAILURE
        }
    }
}

/// The rows that are counted, with their units.
fn print_keys() {
    for row in rows::all() {
        if let Some(units) = row.counted() {
            println!("{} {units}", row.key());
        }
    }
}

fn count(key: &str, n: &str, side: &str) -> Result<(), String> {
    let n = n.parse().ok().filter(|n| *n <= count::MOST).ok_or(format!("N is a number up to {}", count::MOST))?;
    if let Some(row) = files::all().into_iter().find(|row| row.key() == key) {
        return match side {
            "ours" | "copy" => count::count_file(&row, n, side == "copy"),
            _ => Err("the side is ours or copy".into()),
        };
    }
    let row = rows::all().into_iter().find(|row| row.key() == key).ok_or("no such row")?;
    match side {
        "ours" => count::count_ours(&row, n),
        "rust" => count::count_theirs(&row, n),
        _ => return Err("the side is ours or rust".into()),
    }
    Ok(())
}

/// Measures every row first: where an answer or a file differs there is no table.
fn print_tables(prefixes: &[&str]) -> Result<(), String> {
    let wanted = |key: &str| prefixes.is_empty() || prefixes.iter().any(|prefix| key.starts_with(prefix));
    let mut done: Vec<(Row, Measured)> = Vec::new();
    for row in rows::all().into_iter().filter(|row| wanted(&row.key())) {
        let measured = measure::measure(&row)?;
        done.push((row, measured));
    }
    let mut files: Vec<(FileRow, MeasuredFile)> = Vec::new();
    for row in files::all().into_iter().filter(|row| wanted(&row.key())) {
        let measured = measure::measure_file(&row)?;
        files.push((row, measured));
    }
    if done.is_empty() && files.is_empty() {
        return Err("no such row".into());
    }
    print_table(&done);
    print_files(&files);
    Ok(())
}

fn print_table(done: &[(Row, Measured)]) {
    if done.is_empty() {
        return;
    }
    table::print_header();
    for (row, measured) in done {
        let smallest = done.iter().find(|(other, _)| other.name == row.name).map_or(measured, |(_, m)| m);
        table::print_row(row, measured, smallest);
    }
    table::print_worst(done);
}

fn print_files(done: &[(FileRow, MeasuredFile)]) {
    if done.is_empty() {
        return;
    }
    table::print_file_header();
    done.iter().for_each(|(row, measured)| table::print_file_row(row, measured));
    table::print_worst_file(done);
}
