//! The first program: four bytes across a page boundary.
use nogcuvema::{Area, Limits, Machine, Process, PRIVATE};

fn main() -> Result<(), nogcuvema::Error> {
    let processes = [Process::live(1, 100, 100), Process::child(2)];
    let mut machine = Machine::open(&Limits::default(), &[Area::ram(64)], &processes)?;
    let id = machine.get(1, PRIVATE, 8192, 0o600, 0)?;
    let at = machine.attach(1, id, 0, 0)?;
    machine.fork(1, 2)?;
    machine.store(2, at + 4094, b"seam")?;
    let mut bytes = [0; 4];
    machine.load(1, at + 4094, &mut bytes)?;
    println!("{} at {at:#x}, seen by both", String::from_utf8_lossy(&bytes));
    Ok(())
}
