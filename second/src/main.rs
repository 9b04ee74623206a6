//! The listing program: a rule file on standard input, its listing on
//! standard output.

use std::io::{self, Read, Write};

fn main() -> io::Result<()> {
    let mut input = Vec::new();
    // One byte more than is listed tells a long input apart.
    io::stdin()
        .take(second::listing::INPUT as u64 + 1)
        .read_to_end(&mut input)?;
    io::stdout().write_all(second::listing::listing(&input).as_bytes())
}
