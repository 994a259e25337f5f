//! Makes ROMs and writes them to a file.
//!
//!     dumps answers SEED COUNT FILE    ROMs of all sorts, each with the peer's answers, for compare.c
//!     dumps timed SEED COUNT FILE      dumps by kind, so many of each, for times.c
//!
//! Numbers in the files have four bytes, the lowest first.

mod damage;
mod draw;
mod kinds;
mod knots;
mod trials;
mod writer;

use draw::Draw;
use std::fs::File;
use std::io::{self, BufWriter, Write};
use std::process::ExitCode;

/// What buffers are filled with before a call, so that what was not written can be told.
const FILL: u8 = 0xA5;

/// In the place of a buffer's count: it is as it was.
const UNWRITTEN: u32 = u32::MAX;

fn put(to: &mut impl Write, number: u32) -> io::Result<()> {
    to.write_all(&number.to_le_bytes())
}

fn put_bytes(to: &mut impl Write, bytes: &[u8]) -> io::Result<()> {
    put(to, bytes.len() as u32)?;
    to.write_all(bytes)
}

/// A buffer: as it was, or its bytes up to the last that is not zero.
fn put_buffer(to: &mut impl Write, buffer: &[u8]) -> io::Result<()> {
    if buffer.iter().all(|byte| *byte == FILL) {
        return put(to, UNWRITTEN);
    }
    let end = buffer.iter().rposition(|byte| *byte != 0).map_or(0, |last| last + 1);
    put_bytes(to, &buffer[..end])
}

/// How often each answer was given.
struct Tally([u32; 32]);

impl Tally {
    fn count(&mut self, answer: u32) {
        self.0[answer as usize] += 1;
    }

    fn shown(&self) -> String {
        let met = self.0.iter().enumerate().filter(|(_, count)| **count > 0);
        met.map(|(number, count)| format!("{number}:{count}")).collect::<Vec<_>>().join(" ")
    }
}

fn answers(seed: u64, count: usize, to: &mut impl Write) -> io::Result<()> {
    let mut draw = Draw::new(seed);
    let (mut screened, mut ran) = (Tally([0; 32]), Tally([0; 32]));
    let (mut all_steps, mut spread) = (0u64, 0);
    put(to, count as u32)?;
    for _ in 0..count {
        let trial = trials::trial(&mut draw);
        put_bytes(to, &trial.rom)?;
        for size in [trial.marks, trial.work, trial.store] {
            put(to, size as u32)?;
        }
        put(to, trial.budget)?;

        put(to, peer::check(&trial.rom))?;
        let mut marks = vec![FILL; trial.marks];
        let screen = peer::screen(&trial.rom, &mut marks);
        put(to, screen)?;
        put_buffer(to, &marks)?;
        let (mut work, mut store) = (vec![FILL; trial.work], vec![FILL; trial.store]);
        let (run, steps) = peer::run(&trial.rom, &mut work, &mut store, trial.budget);
        put(to, run)?;
        put(to, steps)?;
        put_buffer(to, &work)?;
        put_buffer(to, &store)?;

        screened.count(screen);
        ran.count(run);
        all_steps += u64::from(steps);
        spread += usize::from(matches!(trial.rom.first(), Some(0xF2 | 0xF3)));
    }
    println!("{count} ROMs of seed {seed}, {spread} of them spread, answer:count of the peer");
    println!("screen {}", screened.shown());
    println!("run    {}, {all_steps} steps in all", ran.shown());
    Ok(())
}

fn timed(seed: u64, count: usize, to: &mut impl Write) -> io::Result<()> {
    put(to, kinds::KINDS.len() as u32)?;
    for kind in kinds::KINDS {
        let many = if kind.starts_with("tiny") { 1 } else { count };
        put_bytes(to, kind.as_bytes())?;
        put(to, many as u32)?;
        for index in 0..many {
            let mut draw = Draw::new(seed * 1_000_000 + index as u64 * 8 + kind.len() as u64);
            put_bytes(to, &kinds::dump(kind, &mut draw, index))?;
        }
    }
    Ok(())
}

fn main() -> ExitCode {
    let words: Vec<String> = std::env::args().skip(1).collect();
    let asked = match &words[..] {
        [job, seed, count, file] => match (seed.parse(), count.parse()) {
            (Ok(seed), Ok(count)) => Some((job.as_str(), seed, count, file)),
            _ => None,
        },
        _ => None,
    };
    let result = match asked {
        Some(("answers", seed, count, file)) => File::create(file).map(BufWriter::new).and_then(|mut to| {
            answers(seed, count, &mut to)?;
            to.flush()
        }),
        Some(("timed", seed, count, file)) => File::create(file).map(BufWriter::new).and_then(|mut to| {
            timed(seed, count, &mut to)?;
            to.flush()
        }),
        _ => {
            eprintln!("dumps answers|timed SEED COUNT FILE");
            return ExitCode::from(2);
        }
    };
    if let Err(error) = result {
        eprintln!("dumps: {error}");
        return ExitCode::from(1);
    }
    ExitCode::SUCCESS
}
