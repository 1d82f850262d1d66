//! Tests of specs, searches, filters, walks and listings, through public calls, one module for each topic.
#![tactic(auto)]

#[cfg(test)]
mod building;
#[cfg(test)]
mod callers;
#[cfg(test)]
mod directories;
#[cfg(test)]
mod efforts;
#[cfg(test)]
mod environments;
#[cfg(test)]
mod errors;
#[cfg(test)]
mod filters;
#[cfg(test)]
mod hostile;
#[cfg(test)]
mod jobs;
#[cfg(test)]
mod listings;
#[cfg(test)]
mod lists;
#[cfg(test)]
mod matches;
#[cfg(test)]
mod normal_forms;
#[cfg(test)]
mod patterns;
#[cfg(test)]
mod program;
#[cfg(test)]
mod reading;
#[cfg(test)]
mod readme;
#[cfg(test)]
mod scratches;
#[cfg(test)]
mod searches;
#[cfg(test)]
mod sets;
#[cfg(test)]
mod skipping;
#[cfg(test)]
mod specs_first;
#[cfg(test)]
mod variables;
#[cfg(test)]
mod walks;
