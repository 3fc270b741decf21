//! The kinds of traffic that a trace is put together from.

use std::cmp::Ordering;

use crate::model::{Mode, Model};
use crate::offsets::Method;
use crate::pins::{Pins, WORD};
use crate::random::Random;

/// Which clocks move, and how they lie to each other.
#[derive(Clone, Copy, Debug)]
pub enum Pace {
    WriteAlone,
    ReadAlone,
    Together,
    InTurns,
    Loose,
    WriteFast,
    ReadFast,
}

pub const PACES: [Pace; 7] =
    [Pace::WriteAlone, Pace::ReadAlone, Pace::Together, Pace::InTurns, Pace::Loose, Pace::WriteFast, Pace::ReadFast];

/// Those in which WCLK rises often.
pub const WRITING: [Pace; 4] = [Pace::WriteAlone, Pace::Together, Pace::InTurns, Pace::WriteFast];

#[derive(Clone, Copy, Debug)]
pub enum Scene {
    /// Go to a number of words held and stay about it.
    Hover {
        held: u64,
    },
    /// Go to a number of words written since the reset and try to retransmit about there.
    Verge {
        written: u64,
    },
    Retransmits,
    /// Lower RT in samples of every kind, cleanly or not, and keep it LOW for a while.
    Falls,
    /// Load these two values, with breaks: in parallel in any order, serially as n and m.
    Loading {
        n: u64,
        m: u64,
    },
    OffsetReadings,
    Resets,
    Noise,
}

/// The clock levels of the next sample, as (WCLK, RCLK).
pub fn clocks(pace: Pace, model: &Model, random: &mut Random) -> (bool, bool) {
    let (write, read) = (model.wclk, model.rclk);
    match pace {
        Pace::WriteAlone => (!write, read),
        Pace::ReadAlone => (write, !read),
        Pace::Together => (!(write || read), !(write || read)),
        Pace::InTurns if write == read => (!write, read),
        Pace::InTurns => (write, !read),
        Pace::Loose => (random.flip(), random.flip()),
        Pace::WriteFast => (!write, read != random.one_in(6)),
        Pace::ReadFast => (write != random.one_in(6), !read),
    }
}

/// A sample in which nothing is asked for.
pub fn calm(model: &Model) -> Pins {
    Pins {
        mrs: true,
        prs: true,
        wclk: model.wclk,
        rclk: model.rclk,
        wen: true,
        ren: true,
        ld: true,
        sen: true,
        rt: true,
        fwft_si: false,
        oe: false,
        write_skew_met: true,
        read_skew_met: true,
        unsettled: false,
        data: 0,
    }
}

impl Scene {
    /// Whether the scene is at the place it is about, and not on the way there.
    pub fn arrived(self, model: &Model) -> bool {
        match self {
            Scene::Hover { held } => model.held().abs_diff(held) <= 6,
            Scene::Verge { written } => model.written() + 3 >= written,
            _ => true,
        }
    }

    /// The pace that brings a scene to its place soonest. Both clocks have to run for a retransmit to be seen.
    pub fn way_there(self, model: &Model) -> Pace {
        match self {
            _ if !model.retransmit_seen() => Pace::InTurns,
            Scene::Hover { held } if model.held() < held => Pace::WriteAlone,
            Scene::Hover { .. } => Pace::ReadAlone,
            _ => Pace::Together,
        }
    }

    /// Moves the control pins of a calm sample.
    pub fn play(self, pins: &mut Pins, model: &Model, random: &mut Random) {
        match self {
            Scene::Hover { held } => hover(held, pins, model, random),
            Scene::Verge { .. } if !self.arrived(model) => (pins.wen, pins.ren) = (!model.retransmit_seen(), false),
            Scene::Verge { written } => verge(written, pins, model, random),
            Scene::Retransmits => retransmits(pins, model, random),
            Scene::Falls => falls(pins, model, random),
            Scene::Loading { n, m } => loading(n, m, pins, model, random),
            Scene::OffsetReadings => offset_readings(pins, model, random),
            Scene::Resets => resets(pins, model, random),
            Scene::Noise => noise(pins, random),
        }
    }
}

fn hover(held: u64, pins: &mut Pins, model: &Model, random: &mut Random) {
    let (low, high) = (model.held() < held + 3, model.held() + 3 > held);
    pins.wen = !low && !random.one_in(8) || low && random.one_in(4);
    pins.ren = !high && !random.one_in(8) || high && random.one_in(4);
    pins.wen |= !model.retransmit_seen() && !random.one_in(8);
    pins.ld = !random.one_in(64);
}

/// At the number and beyond it the words come slowly, so that retransmits are tried at each.
fn verge(written: u64, pins: &mut Pins, model: &Model, random: &mut Random) {
    let write_odds = match model.written().cmp(&written) {
        Ordering::Less => 3,
        Ordering::Equal => 12,
        Ordering::Greater => 40,
    };
    pins.rt = if model.fall.lasts() { rt_rises(4, model, random) } else { !random.one_in(6) };
    pins.wen = !pins.rt || !model.retransmit_seen() || !random.one_in(write_odds);
    pins.ren = !pins.rt || random.flip();
}

/// Whether RT that is LOW goes HIGH: soon, once it has brought a retransmit, so that its setup has time.
fn rt_rises(odds: u64, model: &Model, random: &mut Random) -> bool {
    let brought = model.rises_since_retransmit() == Some(0);
    random.one_in(if brought { 2 } else { odds })
}

fn retransmits(pins: &mut Pins, model: &Model, random: &mut Random) {
    let rises = model.read_clock_rises(*pins);
    pins.rt = !rises || !random.one_in(3);
    pins.wen = !pins.rt || random.one_in(3);
    pins.ren = !pins.rt || random.one_in(3);
    pins.ld = !random.one_in(12);
}

/// A word is written under RT LOW where there is none to retransmit, as after a reset. Where many have been written, none is
/// lost to a reset.
fn falls(pins: &mut Pins, model: &Model, random: &mut Random) {
    let lasts = model.fall.lasts();
    if model.written() < 40 && random.one_in(10) {
        resets(pins, model, random);
    }
    pins.rt = match lasts {
        _ if pins.in_reset() => random.flip(),
        true => rt_rises(8, model, random),
        false => !random.one_in(3),
    };
    let low_odds = match pins.rt {
        true => random.pick(&[2, 1_000]),
        false if model.read_clock_rises(*pins) => 24,
        false if lasts => 2,
        false => 6,
    };
    (pins.wen, pins.ren) = (!random.one_in(low_odds), !random.one_in(low_odds));
    if lasts && model.written() == 0 && !pins.in_reset() && !random.one_in(4) {
        (pins.rt, pins.wen, pins.wclk, pins.rclk) = (false, false, !model.wclk, false);
    }
}

fn loading(n: u64, m: u64, pins: &mut Pins, model: &Model, random: &mut Random) {
    pins.ld = random.one_in(12);
    match random.below(10) {
        0 => pins.ren = false,
        1 => pins.rt = false,
        _ if pins.ld || model.offsets.method == Method::Parallel => {
            pins.wen = random.one_in(4);
            pins.data = (random.pick(&[n, m]) as u32 | pins.data << model.part.offset_bits) & WORD;
        }
        _ => {
            let bits = n | m << model.part.offset_bits;
            pins.sen = random.one_in(6);
            pins.fwft_si = bits >> model.offsets.serial.len() & 1 == 1;
        }
    }
    if random.one_in(100) {
        resets(pins, model, random);
    }
}

fn offset_readings(pins: &mut Pins, model: &Model, random: &mut Random) {
    pins.ld = random.one_in(6);
    pins.ren = random.one_in(5);
    pins.wen = !(pins.ld && random.flip());
    pins.rt = !(pins.ren && random.one_in(6));
    if random.one_in(100) {
        resets(pins, model, random);
    }
}

/// A Master Reset mostly keeps the mode, so that a trace stays in the one it was planned for.
fn resets(pins: &mut Pins, model: &Model, random: &mut Random) {
    pins.mrs = random.flip();
    pins.prs = pins.mrs && random.flip();
    if !pins.mrs {
        pins.fwft_si = (model.mode == Mode::FallThrough) != random.one_in(6);
    }
    pins.ld = random.flip();
    pins.wen = random.flip();
    pins.ren = random.flip();
}

fn noise(pins: &mut Pins, random: &mut Random) {
    let thrown = Pins::of(random.bits());
    let (mrs, prs) = (!random.one_in(96), !random.one_in(96));
    *pins = Pins { mrs, prs, rt: !random.one_in(4), ..thrown };
}
