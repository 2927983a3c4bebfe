//! Makes the stored vectors with the baseline: `make_vectors DIR` writes DIR/*.vec, always the same bytes;
//! `make_vectors check FILE ..` unpacks files, runs each call over the baseline and says whether all agree.
mod baseline;
#[path = "vectors/call.rs"]
mod call;
#[path = "vectors/cases.rs"]
mod cases;
#[path = "vectors/conversion_cases.rs"]
mod conversion_cases;
#[path = "vectors/edit_cases.rs"]
mod edit_cases;
#[path = "vectors/file.rs"]
mod file;
#[path = "vectors/form_cases.rs"]
mod form_cases;
#[path = "vectors/limit_cases.rs"]
mod limit_cases;
#[path = "vectors/pack.rs"]
mod pack;
#[path = "vectors/parts.rs"]
mod parts;
#[path = "vectors/value_cases.rs"]
mod value_cases;
#[path = "vectors/version_cases.rs"]
mod version_cases;

use file::File;

fn check(path: &str) -> bool {
    let bytes = std::fs::read(path).expect("a vector file");
    match file::disagrees(&bytes) {
        Ok(count) => println!("{path}: {count} vectors agree"),
        Err(number) => println!("{path}: vector {number} does not agree"),
    }
    file::disagrees(&bytes).is_ok()
}

fn write(directory: &str, file: &File) {
    assert!(file.bytes.len() <= 65_536, "{} is too long: {}", file.name, file.bytes.len());
    println!("{}: {} vectors, {} bytes", file.name, file.count, file.bytes.len());
    std::fs::write(format!("{directory}/{}.vec", file.name), &file.bytes).expect("a folder to write to");
}

fn files() -> Vec<File> {
    vec![
        cases::all_identifiers(),
        cases::all_dates(),
        value_cases::all_values(),
        value_cases::all_puts(),
        cases::all_checks(),
        cases::all_tables(),
        cases::all_views(),
        edit_cases::all_edits(),
        edit_cases::all_given(),
        edit_cases::all_orders(),
        edit_cases::all_runs(),
        form_cases::all_forms(),
        form_cases::all_strings(),
        limit_cases::all_lengths(),
        limit_cases::all_counts(),
        version_cases::all_versions(),
        version_cases::all_offsets(),
        version_cases::all_indexes(),
        conversion_cases::all_conversions(),
    ]
}

fn main() {
    let arguments: Vec<String> = std::env::args().skip(1).collect();
    match arguments.split_first() {
        Some((first, files)) if first == "check" => {
            let right = files.iter().filter(|path| check(path)).count();
            std::process::exit(i32::from(right < files.len()));
        }
        Some((directory, [])) => {
            let files = files();
            files.iter().for_each(|file| write(directory, file));
            println!("{}", file::answers(&files));
        }
        _ => println!("make_vectors DIR, or make_vectors check FILE .."),
    }
}
