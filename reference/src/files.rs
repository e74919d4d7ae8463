//! Generated inputs as files, each beside what it prints, so that a comparison starts the
//! reference once for many seeds.
//!
//! A file's name is the words of `make` that give its input again, with `_` between:
//! `sheet_7`, `calls_7`, `calls-batch_0_25`. What it prints stands in the file of that name with
//! `.expected` behind it.

use std::fs;
use std::io::Result;
use std::path::Path;

use crate::{calls, generator, sheet};

/// The sheets of several seeds.
pub fn sheets(first: u64, count: u64, folder: &Path) -> Result<()> {
    for seed in generator::seeds(first, count) {
        let input = generator::sheet(seed);
        put(folder, &format!("sheet_{seed}"), &input, &sheet::run(&input))?;
    }
    Ok(())
}

/// The scripts of several seeds: a batch, and each that the batch leaves out.
pub fn scripts(first: u64, count: u64, folder: &Path) -> Result<()> {
    let batch = generator::calls_batch(first, count);
    put(folder, &format!("calls-batch_{first}_{count}"), &batch, &calls::run(&batch))?;
    for seed in generator::left_out_of_batch(first, count) {
        let script = generator::calls(seed).octets;
        put(folder, &format!("calls_{seed}"), &script, &calls::run(&script))?;
    }
    Ok(())
}

fn put(folder: &Path, name: &str, input: &[u8], expected: &str) -> Result<()> {
    fs::write(folder.join(name), input)?;
    fs::write(folder.join(format!("{name}.expected")), expected)
}
