//! A second model of the FIFOs, which shares neither code nor shape with the proved one: the counts have no width, no
//! stage is carried, and whatever a side sees is looked up in the history of rises since the reset.
//!
//! The model: `part`, `pins`, `history`, `offsets`, `fall`, `refusals`, `model`; two of it side by side, `pair`; some in a row,
//! `chain`. What it is tried on: `random`, `scenes`, `steering`, `generator`, `plans`, `trace`; and what of that has been come
//! through: `corners`, `watch`. The others that it is compared with: `program`, `library`, `hostile`, `compare`, `shrink`. And
//! `handed`, for states that no history leads to: a small model on the state's own fields, which `runs` is held to.

pub mod chain;
pub mod compare;
pub mod corners;
pub mod fall;
pub mod generator;
pub mod handed;
pub mod history;
pub mod hostile;
pub mod library;
pub mod model;
pub mod offsets;
pub mod pair;
pub mod part;
pub mod pins;
pub mod plans;
pub mod program;
pub mod random;
pub mod refusals;
pub mod runs;
pub mod scenes;
pub mod shrink;
pub mod steering;
pub mod trace;
pub mod watch;
