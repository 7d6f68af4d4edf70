//! Cases to try, made from a seed: each file makes one kind of them.

pub mod arrivals;
pub mod bursts;
pub mod faulty;
pub mod forms;
pub mod histories;
pub mod hostile;
pub mod lives;
pub mod records;
pub mod refusals;
pub mod schedules;
pub mod settings;
pub mod unsound;
