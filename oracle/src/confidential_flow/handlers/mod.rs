//! Filled up: the payloads of remote commands and which harts they select. What a command does to the machine (fences, interrupts) is
//! outside the tables, so its handler does nothing here; `crate::effects` notes that it ran.
pub mod shutdown;
pub mod symmetrical_multiprocessing;
