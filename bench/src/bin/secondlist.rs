//! The second reader's listing as a program: standard input to standard output. With an argument it writes nothing.

use std::io::{Read, Write};

fn main() {
    let mut input = Vec::new();
    std::io::stdin().read_to_end(&mut input).expect("standard input");
    if std::env::args().len() > 1 {
        return;
    }
    std::io::stdout().write_all(&reader::celllist(&input)).expect("standard output");
}
