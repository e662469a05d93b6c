//! The nested acceleration rules written a second time, to compare other programs with.

pub mod calls;
pub mod csr;
pub mod dropped;
pub mod fence;
pub mod gen;
pub mod hart;
pub mod hypervisor;
pub mod lines;
pub mod lister;
pub mod page;
pub mod recording;
pub mod registers;
pub mod replay;
pub mod rng;
pub mod samples;
pub mod state;
pub mod steps;
pub mod trap;
pub mod xlen;
