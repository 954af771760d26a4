//! What the yardsticks share: networks, options, the rules of lengths, the plain search, fractions, and the line of a run.
//!
//! They are measures for speed, written for this project from its rules, and no part of the proved program.

pub mod fraction;
pub mod graph;
pub mod lengths;
pub mod network;
pub mod numbers;
pub mod options;
pub mod report;
pub mod run;
pub mod search;
