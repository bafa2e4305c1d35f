//! The tests of what runs: each routine by itself, worked programs with quiet and hostile ROMs, generated ones, small and
//! large, and programs that just fit. There is nothing else in this crate: a crate with tests is proved twice, so the
//! crates that they test have none.
#![tactic(auto)]

#[cfg(test)]
mod counting;
#[cfg(test)]
mod edges;
#[cfg(test)]
mod fitting;
#[cfg(test)]
mod generated;
#[cfg(test)]
mod interrupts;
#[cfg(test)]
mod jumps;
#[cfg(test)]
mod limits;
#[cfg(test)]
mod machines;
#[cfg(test)]
mod outsides;
#[cfg(test)]
mod routines;
#[cfg(test)]
mod rows;
#[cfg(test)]
mod running;
