//! A second implementation of document 01 and of document 02's first two requests ("the oracle"), and the harness that holds an engine
//! against it.
//!
//! The model: limits, message, reader, writer, airtime, record, soundness, base, checks, steps, life, net, demand, schedule, replay,
//! faulty, and model with the calls.
//! The harness: engine (the calls), guard and compared (one call on both), case, generate, plan, reach, shrink, runner, rng; faults.
//! Stored cases: starred, twelve, sixteen, course, stored. The programs: trace, listed. The proved engine: linked. Figures: bench.

pub mod airtime;
pub mod base;
pub mod bench;
pub mod case;
pub mod causes;
pub mod checks;
pub mod compared;
pub mod course;
pub mod demand;
pub mod engine;
pub mod faults;
pub mod faulty;
pub mod figures;
pub mod generate;
pub mod guard;
pub mod life;
pub mod limits;
#[cfg(feature = "linked")]
pub mod linked;
pub mod listed;
pub mod message;
pub mod model;
pub mod net;
pub mod plan;
pub mod reach;
pub mod reader;
pub mod record;
pub mod refusal;
pub mod replay;
pub mod rng;
#[path = "../../../include/roster.rs"]
pub mod roster;
pub mod runner;
pub mod schedule;
pub mod shrink;
pub mod sixteen;
pub mod soundness;
pub mod starred;
pub mod steps;
pub mod stored;
pub mod trace;
pub mod twelve;
pub mod writer;
