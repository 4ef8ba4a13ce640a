//! Replays a script on standard input with the independent implementation.

use std::io::{self, BufWriter};

fn main() -> io::Result<()> {
    let script = io::stdin().lock();
    let mut out = BufWriter::new(io::stdout().lock());
    compare::replay::run_script(script, &mut out)
}
