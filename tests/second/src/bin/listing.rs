//! The listing program: reads a model file from standard input, limit 1,000.

use std::io::{Read, Write};

fn main() {
    let mut file = Vec::new();
    std::io::stdin().read_to_end(&mut file).expect("standard input can be read");
    let text = second::reference::listing::listing(&file);
    std::io::stdout().write_all(text.as_bytes()).expect("standard output can be written");
}
