//! Random states: such as pass 3 and lie in the corners, such as fail by one clause of it, and records to try on them.

use super::fields::{Enables, Fields, Side};
use super::rules::Handed;
use crate::model::Mode;
use crate::offsets::Method;
use crate::part::Part;
use crate::pins::{Pins, WORD};
use crate::random::Random;

/// A number up to a limit: at either end, next to it, at one of the given places or next to it, or anywhere.
fn up_to(limit: u64, places: &[u64], random: &mut Random) -> u64 {
    let near = random.below(3);
    let place = match random.below(4) {
        0 => near,
        1 => limit.saturating_sub(near),
        2 if !places.is_empty() => (random.pick(places) + near).saturating_sub(1),
        _ => random.below(limit + 1),
    };
    place.min(limit)
}

fn offset(part: Part, places: &[u64], random: &mut Random) -> u16 {
    up_to(part.depth - 1, places, random) as u16
}

/// A count that lies so far behind, round the width.
fn back(count: u16, words: u64) -> u16 {
    count.wrapping_sub(words as u16)
}

fn remembered(counts: &[u16], random: &mut Random) -> Option<u16> {
    let thrown = random.bits() as u16;
    random.flip().then(|| if random.one_in(4) { thrown } else { random.pick(counts) })
}

/// The two sides of a state that passes, by how far each count and stage lies behind the write count.
fn sides(part: Part, n: u16, m: u16, random: &mut Random) -> (Side, Side) {
    let (depth, half) = (part.depth, part.depth / 2);
    let count = match random.below(3) {
        0 => up_to(2 * depth, &[depth, depth - 2], random) as u16,
        1 => back(0, random.below(4)),
        _ => random.bits() as u16,
    };
    let held = up_to(depth, &[half, u64::from(n), depth - u64::from(m)], random);
    let stage =
        |random: &mut Random| up_to(depth, &[held, depth - u64::from(m), held.saturating_sub(u64::from(n))], random);
    let second_of_read = up_to(held, &[held.saturating_sub(u64::from(n))], random);
    let read_count = back(count, held);
    let write = Side {
        clock: random.one_in(3),
        count,
        first: back(count, stage(random)),
        second: back(count, stage(random)),
        before: None,
        almost: random.flip(),
    };
    let read = Side {
        clock: random.one_in(3),
        count: read_count,
        first: back(count, stage(random)),
        second: back(count, second_of_read),
        before: None,
        almost: random.flip(),
    };
    let seen = [count, read_count, 0, write.first, read.second];
    let [of_read, of_written] = [remembered(&seen, random), remembered(&seen, random)];
    (Side { before: of_read, ..write }, Side { before: of_written, ..read })
}

/// Any of them is a state's, with RT HIGH after an unclean fall too.
fn enables(random: &mut Random) -> Enables {
    Enables { rt: random.flip(), ren: !random.one_in(4), wen: !random.one_in(4), clean: !random.one_in(3) }
}

pub fn passing(part: Part, random: &mut Random) -> Handed {
    let [n, m] = [offset(part, &[127, 1_023], random), offset(part, &[127, 1_023], random)];
    let (write, read) = sides(part, n, m, random);
    let mode = random.pick(&[Mode::Standard, Mode::FallThrough]);
    let serial_bits = up_to(u64::from(part.serial_bits()) - 1, &[u64::from(part.offset_bits)], random) as u8;
    let shown = offset(part, &[u64::from(n), u64::from(m)], random);
    let fields = Fields {
        started: !random.one_in(32),
        write,
        read,
        passed: random.one_in(4),
        view: random.pick(&[0, 1, 2, 2, 2, 2]),
        setup: random.pick(&[0, 0, 0, 1, 2]),
        mode,
        untaken: mode == Mode::FallThrough && random.flip(),
        output: up_to(u64::from(WORD), &[], random) as u32,
        method: random.pick(&[Method::Parallel, Method::Serial]),
        n,
        m,
        load_m_next: random.flip(),
        read_m_next: random.flip(),
        serial: up_to((1 << serial_bits) - 1, &[], random) as u32,
        serial_bits,
        shown: random.one_in(3).then_some(shown),
        enables: enables(random),
    };
    Handed { part, fields }
}

/// How many ways there are to fail.
pub const CLAUSES: u64 = 11;

/// A state that passes but for one clause, and for that mostly by one.
pub fn failing(part: Part, clause: u64, random: &mut Random) -> Handed {
    let mut handed = passing(part, random);
    let fields = &mut handed.fields;
    let over = if random.flip() { 0 } else { random.below(part.depth) };
    let wide = (part.depth + over) as u16;
    let far = back(fields.write.count, part.depth + 1 + over);
    let held = fields.write.count.wrapping_sub(fields.read.count);
    match clause {
        0 => fields.n = wide,
        1 => fields.m = wide,
        2 => fields.shown = Some(wide),
        3 => fields.output = WORD + 1 + over as u32,
        4 => fields.serial = 1 << fields.serial_bits,
        5 => fields.serial_bits = part.serial_bits() as u8 + (over % 4) as u8,
        6 => fields.read.count = far,
        7 => fields.write.first = far,
        8 => fields.write.second = far,
        9 => fields.read.first = far,
        _ => fields.read.second = back(fields.write.count, u64::from(held) + 1),
    }
    handed
}

/// A record that mostly asks for one thing, with the clocks mostly rising.
pub fn record(fields: &Fields, random: &mut Random) -> u32 {
    let mut pins = Pins::of(random.bits());
    pins.unsettled = random.one_in(4);
    let reset_odds = if fields.started { 32 } else { 2 };
    (pins.mrs, pins.prs) = (!random.one_in(reset_odds), !random.one_in(32));
    (pins.wclk, pins.rclk) = (!random.one_in(4), !random.one_in(4));
    let wish = random.below(9);
    if wish > 0 {
        (pins.wen, pins.ren, pins.sen, pins.rt, pins.ld) = (true, true, true, true, wish < 5);
    }
    match wish {
        1 | 2 => (pins.wen, pins.ren) = (random.one_in(8), random.flip()),
        3 => (pins.wen, pins.ren) = (random.flip(), random.one_in(8)),
        4 | 8 => (pins.rt, pins.ld) = (false, random.flip()),
        5 if fields.method == Method::Parallel => pins.wen = false,
        5 => pins.sen = false,
        6 => pins.ren = false,
        _ => (),
    }
    pins.record()
}
