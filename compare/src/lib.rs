//! A second implementation of the model in `docs/MODEL.md` and `docs/EXPLORING.md`, written from
//! those documents alone, and what is needed to compare it with the program `pethongu`.

// The model.
pub mod explore;
pub mod policy;
pub mod refusal;
pub mod state;
pub mod system;
pub mod task;
pub mod trace;

// The formats of `docs/FORMATS.md`.
pub mod answer;
pub mod file;
pub mod words;

// The comparison.
pub mod bench;
pub mod case;
pub mod child;
pub mod compare;
pub mod generate;
pub mod odd_words;
pub mod rng;
pub mod shrink;
pub mod tables;
