//! Tests of the program `pathspec`: its words, its commands, and what it says of faults.
#![tactic(auto)]

#[cfg(test)]
mod commands;
#[cfg(test)]
mod lines;
#[cfg(test)]
mod reports;
