//! Tests of what no file of cases can show: stores, handlers, readers, writers and streams
//! that fail or are slow, numbers at their end, and two systems side by side.
#![tactic(auto)]

#[cfg(test)]
mod failing_stores;
#[cfg(test)]
mod faulty;
#[cfg(test)]
mod handlers;
#[cfg(test)]
mod journals;
#[cfg(test)]
mod last_numbers;
#[cfg(test)]
mod replays;
#[cfg(test)]
mod scripts;
#[cfg(test)]
mod streams;
#[cfg(test)]
mod two_systems;
#[cfg(test)]
mod unsent;
