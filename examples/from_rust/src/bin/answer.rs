//! answer FLOW [auto]: answers the lines on standard input as `falkirk live` does, but for its last line.
use falkirk::Session;
use std::io::{self, BufRead, Write};

fn main() -> Result<(), Box<dyn std::error::Error>> {
    let words: Vec<String> = std::env::args().skip(1).collect();
    let flow = std::fs::read_to_string(words.first().ok_or("name a flow")?)?;
    let mut session = Session::open(&flow, words.get(1).is_some_and(|word| word == "auto"))?;
    let (mut input, mut out) = (io::stdin().lock(), io::stdout().lock());
    let mut line = Vec::new();
    while input.read_until(b'\n', &mut line)? > 0 {
        out.write_all(session.ask(line.strip_suffix(b"\n").unwrap_or(&line))?)?;
        line.clear();
    }
    Ok(())
}
