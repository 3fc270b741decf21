//! States with bytes changed.

use std::io::Result;

use super::Hostile;
use crate::generator::Generator;
use crate::handed::{Fields, Handed};
use crate::library::{Call, Reply};
use crate::model::{Model, Outcome};
use crate::pins::Pins;

impl Hostile<'_> {
    /// A few calls on changed state bytes, and a few after a Master Reset.
    pub(super) fn damaged_state(&mut self, generator: &mut Generator, model: &Model, memory: &mut [u32]) -> Result<()> {
        if self.random.one_in(8) {
            self.library.randomize_state(self.random.bits())?;
        } else {
            self.library.damage_state(self.random.bits(), self.random.pick(&[1, 2, 4, 8, 16, 32, 64, 128, 255]))?;
        }
        let fields = Fields::spelled(&self.library.state()?);
        let mut handed = fields.map(|fields| Handed { part: model.part, fields }).filter(Handed::passes);
        *(if handed.is_some() { &mut self.tally.spelled } else { &mut self.tally.unspelled }) += 1;
        let mut calls = Vec::new();
        for record in self.records_and_reset(generator, model) {
            let outcome = handed.as_mut().map_or(Outcome::Refused(3), |handed| handed.sample(record, memory));
            calls.push((Call::right(model.part, record), Reply::told(outcome)));
        }
        self.expect(&calls, "damaged state")
    }

    fn records_and_reset(&mut self, generator: &mut Generator, model: &Model) -> Vec<u32> {
        let mut records: Vec<u32> = (0..3).map(|_| generator.next(model)).collect();
        let mut known = Model::power_up(model.part);
        let mut memory = vec![0; model.part.depth as usize];
        let mut record = Pins { mrs: false, ..Pins::of(self.random.bits()) }.record();
        for _ in 0..9 {
            records.push(record);
            known.sample(record, &mut memory);
            record = generator.next(&known);
        }
        records
    }
}
