//! Writes the sample models: <name>.model, and <name>.listing with what the listing program
//! is to print for it; and the sample tables: <name>.table.
//!
//!     cargo run --release --offline --bin write_models <directory>

use std::path::Path;

use second::inputs::samples;
use second::reference::listing::listing;

fn main() {
    let directory = std::env::args().nth(1).expect("the directory to write to");
    let directory = Path::new(&directory);
    for (name, file) in samples::all() {
        std::fs::write(directory.join(format!("{name}.model")), &file).expect("the model file can be written");
        std::fs::write(directory.join(format!("{name}.listing")), listing(&file)).expect("the listing can be written");
    }
    for (name, file, _) in samples::tables() {
        std::fs::write(directory.join(format!("{name}.table")), &file).expect("the table file can be written");
    }
}
