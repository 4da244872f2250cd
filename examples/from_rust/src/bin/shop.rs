//! A shop whose orders are summed up in this process: batches come, a checkpoint is taken, a node fails and is recovered. What is
//! acknowledged or refused is printed.
use falkirk::{Fault, Session};

const FLOW: &str = "node orders input
node sums total policy lazy
node shop output epoch
edge to_sums orders sums
edge to_shop sums shop
";

const LINES: [&str; 9] = [
    "batch orders 1:20 2:150",
    "batch orders 1:5",
    "checkpoint sums",
    "fail sums",
    "batch orders 2:1 3:7",
    "batch orders 3",
    "recover",
    "close orders",
    "batch orders 4:1",
];

fn main() -> Result<(), Fault> {
    let mut session = Session::open(FLOW, true)?;
    for line in LINES {
        let answer = String::from_utf8_lossy(session.ask(line.as_bytes())?).into_owned();
        for told in answer.lines().filter(|told| told.starts_with("ack ") || told.starts_with("refused ")) {
            println!("{line}: {told}");
        }
    }
    Ok(())
}
