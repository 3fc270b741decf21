//! The C calls from outside: a driver process that is linked to the static library and does what it is told through pipes.

mod comparison;

pub use comparison::Difference;

use std::collections::BTreeMap;
use std::io::{BufReader, BufWriter, Read, Result, Write};
use std::process::{Child, ChildStdin, ChildStdout};

use crate::handed::STATE_BYTES;
use crate::model::Outcome;
use crate::part::Part;
use crate::program::Launch;

pub struct Library {
    launch: Launch,
    child: Child,
    to: BufWriter<ChildStdin>,
    from: BufReader<ChildStdout>,
}

/// What the library gave for one sample; a refusal comes with the marks of what moved, which should be none.
#[derive(Clone, Copy, PartialEq, Eq, Debug)]
pub struct Reply {
    pub number: u32,
    pub answer: u32,
    pub moved: u8,
}

/// Calls by the number that came of them.
pub type Numbers = BTreeMap<u32, u64>;

/// A call with its lengths as they are claimed.
#[derive(Clone, Copy, Debug)]
pub struct Call {
    pub part: u32,
    pub record: u32,
    pub record_length: u64,
    pub state_length: u64,
    pub memory_length: u64,
    pub answer_length: u64,
}

impl Call {
    /// With every length as it should be.
    pub fn right(part: Part, record: u32) -> Call {
        Call {
            part: u32::from(part.number),
            record,
            record_length: 4,
            state_length: STATE_BYTES as u64,
            memory_length: 4 * part.depth,
            answer_length: 3,
        }
    }
}

/// What the driver says where no word has changed.
const NO_WORD: usize = u32::MAX as usize;

/// What a watched call has left: the state's bytes, and the word of the memory that it has changed.
#[derive(Clone, Copy, PartialEq, Eq, Debug)]
pub struct Aftermath {
    pub state: [u8; STATE_BYTES],
    pub written: Option<(usize, u32)>,
}

impl Reply {
    pub fn told(outcome: Outcome) -> Reply {
        match outcome {
            Outcome::Taken(answer) => Reply { number: 0, answer, moved: 0 },
            Outcome::Refused(number) => Reply { number, answer: 0, moved: 0 },
        }
    }
}

pub fn start(launch: &Launch) -> (Child, BufWriter<ChildStdin>, BufReader<ChildStdout>) {
    let mut child = launch.command().spawn().expect("the driver starts");
    let to = BufWriter::new(child.stdin.take().expect("its input is a pipe"));
    let from = BufReader::new(child.stdout.take().expect("its output is a pipe"));
    (child, to, from)
}

impl Library {
    pub fn new(launch: Launch) -> Library {
        let (child, to, from) = start(&launch);
        Library { launch, child, to, from }
    }

    /// After a crash of the driver.
    pub fn restart(&mut self) {
        self.child.wait().ok();
        (self.child, self.to, self.from) = start(&self.launch);
    }

    fn command(&mut self, letter: u8, numbers: &[u32]) -> Result<()> {
        self.to.write_all(&[letter])?;
        numbers.iter().try_for_each(|number| self.to.write_all(&number.to_le_bytes()))
    }

    fn end_piece(&mut self) -> Result<()> {
        self.command(b'E', &[])?;
        self.to.flush()
    }

    fn receive<const BYTES: usize>(&mut self) -> Result<[u8; BYTES]> {
        let mut bytes = [0; BYTES];
        self.from.read_exact(&mut bytes)?;
        Ok(bytes)
    }

    pub fn power_up(&mut self, part: Part, against_front: bool) -> Result<()> {
        self.command(b'P', &[u32::from(against_front), u32::from(part.number)])
    }

    pub fn refill(&mut self, seed: u32) -> Result<()> {
        self.command(b'F', &[seed])
    }

    pub fn save_state(&mut self) -> Result<()> {
        self.command(b'S', &[])
    }

    pub fn restore_state(&mut self) -> Result<()> {
        self.command(b'B', &[])
    }

    pub fn damage_state(&mut self, place: u32, mask: u32) -> Result<()> {
        self.command(b'D', &[place, mask])
    }

    pub fn randomize_state(&mut self, seed: u32) -> Result<()> {
        self.command(b'X', &[seed])
    }

    pub fn state_bytes(&mut self) -> Result<u32> {
        self.command(b'L', &[])?;
        self.end_piece()?;
        self.receive().map(u32::from_le_bytes)
    }

    pub fn memory_bytes(&mut self, part: u32) -> Result<u32> {
        self.command(b'N', &[part])?;
        self.end_piece()?;
        self.receive().map(u32::from_le_bytes)
    }

    /// The number that power-up gives for a state of that length, and what moved.
    pub fn power_up_of(&mut self, length: u64) -> Result<(u32, u8)> {
        self.command(b'U', &[length as u32, (length >> 32) as u32])?;
        self.end_piece()?;
        let [a, b, c, d, moved] = self.receive()?;
        Ok((u32::from_le_bytes([a, b, c, d]), moved))
    }

    fn samples(&mut self, piece: &[(u32, bool)]) -> Result<Vec<Reply>> {
        self.command(b'R', &[piece.len() as u32])?;
        for &(record, watch_memory) in piece {
            self.to.write_all(&[u8::from(watch_memory)])?;
            self.to.write_all(&record.to_be_bytes())?;
        }
        self.end_piece()?;
        piece.iter().map(|_| self.reply_in_a_row()).collect()
    }

    fn reply_in_a_row(&mut self) -> Result<Reply> {
        let [number, a, b, c] = self.receive()?;
        Ok(match number {
            0 => Reply { number: 0, answer: u32::from_be_bytes([0, a, b, c]), moved: 0 },
            _ => Reply { number: u32::from(number), answer: 0, moved: a },
        })
    }

    fn watch(&mut self, call: &Call) -> Result<()> {
        self.command(b'W', &[call.part])?;
        self.to.write_all(&call.record.to_be_bytes())?;
        self.to.write_all(&(!call.record).to_be_bytes())?;
        let lengths = [call.record_length, call.state_length, call.memory_length, call.answer_length];
        lengths.iter().try_for_each(|length| self.to.write_all(&length.to_le_bytes()))
    }

    /// Several calls, each made twice and watched on all sides.
    pub fn watched(&mut self, calls: &[Call]) -> Result<Vec<Reply>> {
        calls.iter().try_for_each(|call| self.watch(call))?;
        self.end_piece()?;
        calls.iter().map(|_| self.reply_watched()).collect()
    }

    /// The same on a state of the caller's making, with what each call has left.
    pub fn handed_in(&mut self, state: &[u8; STATE_BYTES], calls: &[Call]) -> Result<Vec<(Reply, Aftermath)>> {
        self.command(b'T', &[])?;
        self.to.write_all(state)?;
        for call in calls {
            self.watch(call)?;
            self.command(b'A', &[])?;
        }
        self.end_piece()?;
        calls.iter().map(|_| Ok((self.reply_watched()?, self.aftermath()?))).collect()
    }

    fn aftermath(&mut self) -> Result<Aftermath> {
        let state = self.receive()?;
        let place = u32::from_le_bytes(self.receive()?) as usize;
        let word = u32::from_be_bytes(self.receive()?);
        Ok(Aftermath { state, written: (place != NO_WORD).then_some((place, word)) })
    }

    /// The state's bytes as they are.
    pub fn state(&mut self) -> Result<[u8; STATE_BYTES]> {
        self.command(b'G', &[])?;
        self.end_piece()?;
        self.receive()
    }

    fn reply_watched(&mut self) -> Result<Reply> {
        let number = self.receive().map(u32::from_le_bytes)?;
        let [moved, a, b, c] = self.receive()?;
        Ok(Reply { number, answer: u32::from_be_bytes([0, a, b, c]), moved })
    }

    fn memory(&mut self, part: Part) -> Result<Vec<u32>> {
        self.command(b'M', &[])?;
        self.end_piece()?;
        (0..part.depth).map(|_| self.receive().map(u32::from_be_bytes)).collect()
    }
}
