//! The lines of the trace program by the reference, for a trace that is legal throughout.

use std::io::{self, BufWriter, Write};

use reference::model::{Model, Outcome};

fn main() -> io::Result<()> {
    let (part, records) = bench::read().expect("a trace of a known part on standard input");
    let mut model = Model::power_up(part);
    let mut memory = vec![0; part.depth as usize];
    let mut lines = BufWriter::new(io::stdout().lock());
    for (index, &record) in records.iter().enumerate() {
        let Outcome::Taken(answer) = model.sample(record, &mut memory) else {
            panic!("record {index} is refused");
        };
        writeln!(lines, "{index} {answer:06X}")?;
    }
    writeln!(lines, "end {} 0", records.len())
}
