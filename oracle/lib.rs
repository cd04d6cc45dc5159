//! The oracle as a library: the Rust decoder, answers in the specification's numbers, payloads to try.

// Three files are cut from the Rust source by oracle/build.
#[allow(dead_code)]
#[path = "../target/oracle/oamd.rs"]
pub mod oamd;
#[allow(dead_code)]
#[path = "../target/oracle/oamd_noting.rs"]
mod oamd_noting;
#[path = "../target/oracle/renderer_rules.rs"]
mod renderer_rules;

pub mod answer;
pub mod call;
pub mod container;
pub mod container_mistakes;
pub mod context;
pub mod covered;
pub mod distances;
pub mod form;
pub mod journal;
pub mod listener;
pub mod mark_mistakes;
pub mod marks;
mod notes;
pub mod orders;
mod place;
mod row;
pub mod tables;
pub mod timing;

pub mod aim;
mod assignment;
mod bits;
pub mod container_cases;
pub mod container_cuts;
pub mod container_writer;
pub mod fixed;
pub mod generator;
mod object_element;
mod payload;
pub mod random;
mod spoil;
pub mod steady;
