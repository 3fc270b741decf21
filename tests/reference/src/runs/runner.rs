//! The driver process that makes the runs.

use std::io::{BufReader, BufWriter, Read, Result, Write};
use std::process::{ChildStdin, ChildStdout};

use super::{Run, Told};
use crate::library::start;
use crate::program::Launch;

pub struct Runner {
    to: BufWriter<ChildStdin>,
    from: BufReader<ChildStdout>,
}

impl Runner {
    pub fn new(launch: &Launch) -> Runner {
        let (_, to, from) = start(launch);
        Runner { to, from }
    }

    pub fn run(&mut self, run: &Run) -> Result<Told> {
        for number in [u32::from(run.lenient), u32::from(run.against_front), run.part, run.seed] {
            self.to.write_all(&number.to_le_bytes())?;
        }
        for length in [run.trace.len(), run.words, run.answers, run.marks] {
            self.to.write_all(&(length as u64).to_le_bytes())?;
        }
        self.to.write_all(&run.state)?;
        self.to.write_all(&run.trace)?;
        self.to.flush()?;
        self.reply(run)
    }

    fn reply(&mut self, run: &Run) -> Result<Told> {
        let number = u32::from_le_bytes(self.array()?);
        let [moved] = self.array()?;
        let state = self.bytes(run.state.len())?;
        let memory = self.bytes(4 * run.words)?;
        let memory = memory.chunks_exact(4).map(|word| u32::from_le_bytes(word.try_into().expect("four"))).collect();
        let (answers, marks) = (self.bytes(run.answers)?, self.bytes(run.marks)?);
        let [index, accepted] = [u64::from_le_bytes(self.array()?), u64::from_le_bytes(self.array()?)];
        Ok(Told { number, moved, index, accepted, state, memory, answers, marks })
    }

    fn array<const BYTES: usize>(&mut self) -> Result<[u8; BYTES]> {
        let mut bytes = [0; BYTES];
        self.from.read_exact(&mut bytes)?;
        Ok(bytes)
    }

    fn bytes(&mut self, count: usize) -> Result<Vec<u8>> {
        let mut bytes = vec![0; count];
        self.from.read_exact(&mut bytes)?;
        Ok(bytes)
    }
}
