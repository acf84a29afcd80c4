//! A run of three processes: process 0 sends to process 1, which takes the message in, and then fails.

use lemidrosy::{Refusal, Run};

fn main() -> Result<(), Refusal> {
    let mut run = Run::start(&[1, 1, 1])?;
    let message = run.send(0, 1)?;
    run.deliver(message)?;
    let back = run.recover(1 << 0)?;
    print!("{} rolled back, line", back.rolled_back);
    back.line.iter().for_each(|index| print!(" {index}"));
    println!();
    Ok(())
}
