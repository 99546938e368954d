//! Reads a role file on standard input and prints the report on it.

use std::io::{self, Read, Write};

fn main() -> io::Result<()> {
    let mut file = Vec::new();
    io::stdin().lock().read_to_end(&mut file)?;
    let mut output = io::stdout().lock();
    output.write_all(&second_checker::report(&file))?;
    output.flush()
}
