//! Reports the strips of a camera's picture, of either head: `strips FILE [MAP]` reads FILE under the
//! delivery map that the file MAP holds, or as one that came whole, and prints its sizes, the quality
//! code of each segment and what it charged.

use chelmesut::{read_patchy, work_limit, Budget, Limits, BLOCK_LEN};
use std::error::Error;
use std::process::ExitCode;

fn report(file: &[u8], map: &[u8]) -> Result<(), Box<dyn Error>> {
    let limits = Limits::camera();
    let granted = work_limit(0, &limits)?;
    let mut budget = Budget { remaining: granted };
    let mut output = vec![0; limits.max_output as usize];
    let mut scratch = vec![0; limits.max_output as usize];
    let mut quality = vec![0; limits.max_segments as usize];
    let sizes = read_patchy(
        file,
        map,
        0,
        &limits,
        &mut budget,
        &mut output,
        &mut scratch,
        &mut quality,
    )?;
    println!(
        "{} x {} pixels of {} bytes in {} segments of {} x {}, {} units",
        sizes.width,
        sizes.height,
        sizes.pixel_bytes(),
        sizes.segments,
        sizes.block_width,
        sizes.block_height,
        granted - budget.remaining
    );
    let codes: String = quality[..sizes.segments as usize]
        .iter()
        .map(u8::to_string)
        .collect();
    println!("{codes}");
    println!("1 good, 2 missing, 3 outside the file, 4 rejected");
    Ok(())
}

fn load(path: &str) -> Result<Vec<u8>, String> {
    std::fs::read(path).map_err(|error| format!("{path}: {error}"))
}

fn run(path: &str, map_path: Option<&String>) -> Result<(), Box<dyn Error>> {
    let file = load(path)?;
    let map = match map_path {
        Some(path) => load(path)?,
        None => vec![1; file.len().div_ceil(BLOCK_LEN)],
    };
    report(&file, &map)
}

fn main() -> ExitCode {
    let words: Vec<String> = std::env::args().skip(1).collect();
    let outcome = match words.as_slice() {
        [path] => run(path, None),
        [path, map] => run(path, Some(map)),
        _ => Err("usage: strips FILE [MAP]".into()),
    };
    match outcome {
        Ok(()) => ExitCode::SUCCESS,
        Err(error) => {
            eprintln!("{error}");
            ExitCode::FAILURE
        }
    }
}
