//! Tests of globs, sets of globs, heads, parts and attribute files, through public calls, one module for each topic.
#![tactic(auto)]

#[cfg(test)]
mod answers;
#[cfg(test)]
mod attributes;
#[cfg(test)]
mod deciders;
#[cfg(test)]
mod directory_globs;
#[cfg(test)]
mod globs;
#[cfg(test)]
mod heads;
#[cfg(test)]
mod numbers;
pub mod orders;
#[cfg(test)]
mod paths;
#[cfg(test)]
mod sets;
#[cfg(test)]
mod steps;
#[cfg(test)]
mod tables;
#[cfg(test)]
mod told;
#[cfg(test)]
mod trees;
