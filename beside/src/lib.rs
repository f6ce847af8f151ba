//! A second, independent reading of the two files of the trial program, a second,
//! independent decision about them, a second, independent enforcement of it, and a second gate
//! that does all of this call by call.
//!
//! It shares no code with the gate it is compared with, so that a slip in
//! one of them shows up as a disagreement.

#![forbid(unsafe_code)]

pub mod calls;
pub mod combining;
pub mod deciding;
pub mod devices;
pub mod enforcement;
pub mod flat;
pub mod gate;
pub mod generate;
pub mod line;
pub mod operators;
pub mod policy;
pub mod readings;
pub mod refusal;
pub mod services;
pub mod sources;
pub mod spelling;
pub mod summary;
pub mod survey;
pub mod trial;
pub mod value;
