//! Which conditional jumps of machine code go both ways: a listing by `objdump`, and what callgrind
//! saw of programs that hold that code.
//!
//! - [`listing`]: functions and instructions from `objdump`; conditional jumps and moves.
//! - [`symbols`]: where a program holds a function, from `nm`.
//! - [`dump`]: how often each instruction was run and each jump taken, from callgrind's dumps.
//! - [`ways`]: the ways of each jump, added up over runs and programs.
//! - [`report`]: the table by function, the list of jumps, the summary line.
//! - [`run`]: the programs that are called for all this.

pub mod dump;
pub mod listing;
pub mod report;
pub mod run;
pub mod symbols;
pub mod ways;
