//! Where the constants come from: every table of the sources, computed from the relations of the kernels alone
//! (`relations` in `crates/kernel/specs/Kernels.antt`) and from F, by its rule.
//!
//! With no argument each table is compared with the one that the sources have, and the status is 1 where one differs.
//! `--write` puts the computed tables into the sources, `--print` prints them.
mod antt;
mod kernel;
mod order;
mod phases;
mod rattle;
mod relations;
mod source;

use std::env;
use std::path::Path;
use std::process::ExitCode;

use kernel::Kernel;
use source::{Block, Place, Sources};

const ROOT: &str = concat!(env!("CARGO_MANIFEST_DIR"), "/..");

fn main() -> ExitCode {
    let words: Vec<String> = env::args().skip(1).collect();
    let words: Vec<&str> = words.iter().map(String::as_str).collect();
    let ended = match words[..] {
        [] => compare(),
        ["--write"] => write(),
        ["--print"] => print(),
        _ => {
            eprintln!("usage: tables/run [--write | --print]");
            return ExitCode::from(2);
        }
    };
    match ended {
        Ok(true) => ExitCode::SUCCESS,
        Ok(false) => ExitCode::FAILURE,
        Err(error) => {
            eprintln!("tables: {error}");
            ExitCode::from(2)
        }
    }
}

/// The tables, each with its place in the sources.
fn blocks(sources: &Sources) -> Result<Vec<Block>, String> {
    let kernels: Vec<Kernel> = relations::read(sources)?
        .into_iter()
        .enumerate()
        .map(|(number, relations)| Kernel::new(number, relations))
        .collect::<Result<_, _>>()?;
    let distances: Vec<Vec<u32>> = kernels.iter().map(order::partial_distances).collect();
    let order = order::information_order(&distances[2]);
    let constant = |name, text| Block::new(Place::Constant(name), text);
    let definition = |name, text| Block::new(Place::Definition(name), text);
    Ok(vec![
        constant("ROWS", rattle::rows(&kernels)),
        constant("INVERSE_ROWS", rattle::inverse_rows(&kernels)),
        constant("SHAPES", rattle::shapes(&kernels)),
        constant("PATHS", rattle::paths(&kernels)),
        constant("ORDER", rattle::order(&order, &distances[2])),
        definition("table", antt::rows(&kernels)),
        definition("inverse_table", antt::inverse_rows(&kernels)),
        definition("solved", antt::solved(&kernels)),
        definition("windows", antt::windows(&kernels)),
        definition("solutions", antt::solutions(&kernels)),
        definition("shape_table", antt::shapes(&kernels)),
        definition("path_table", antt::paths(&kernels)),
        definition("order", antt::order(&order)),
        definition("distance_table", antt::partial_distances(&distances)),
    ])
}

/// Says which tables of the sources are not as computed, and whether all are.
fn compare() -> Result<bool, String> {
    let sources = Sources::read(Path::new(ROOT))?;
    let blocks = blocks(&sources)?;
    let mut different = 0;
    for block in &blocks {
        if let Some(difference) = sources.difference(block)? {
            println!("{difference}");
            different += 1;
        }
    }
    println!(
        "tables: {} computed from the relations, {different} differ",
        blocks.len()
    );
    Ok(different == 0)
}

/// Writes the tables into the sources.
fn write() -> Result<bool, String> {
    let mut sources = Sources::read(Path::new(ROOT))?;
    let blocks = blocks(&sources)?;
    for block in &blocks {
        sources.put(block)?;
    }
    let changed = sources.write()?;
    println!(
        "tables: {} computed from the relations, {changed} files changed",
        blocks.len()
    );
    Ok(true)
}

fn print() -> Result<bool, String> {
    let sources = Sources::read(Path::new(ROOT))?;
    for block in blocks(&sources)? {
        println!("{}", sources.item(&block)?);
    }
    Ok(true)
}
