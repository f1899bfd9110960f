//! Draws the plots of docs/BENCHMARKS.md: `plots PAGE FOLDER` reads the page and writes `growth.svg`
//! and `ratios.svg` into the folder. `tools/plots` calls it.

#![forbid(unsafe_code)]

use std::error::Error;
use std::path::Path;
use std::{env, fs};

use zelmotar_cli::plots;

fn main() -> Result<(), Box<dyn Error>> {
    let words: Vec<String> = env::args().skip(1).collect();
    let [page, folder] = &words[..] else { return Err("usage: plots PAGE FOLDER".into()) };
    let page = fs::read_to_string(page)?;
    fs::write(Path::new(folder).join("growth.svg"), plots::growth(&page)?)?;
    fs::write(Path::new(folder).join("ratios.svg"), plots::ratios(&page)?)?;
    Ok(())
}
