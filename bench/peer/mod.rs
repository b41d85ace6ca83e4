// Radio block centres in plain Rust, with all rules, and the events and answers of a line of them. They share no code with the proved ones, and
// are only measured against them.

mod bits;
mod border;
mod centre;
pub mod draw;
pub mod frames;
pub mod journal;
pub mod line;
pub mod log;
mod message;
mod rules;
pub mod run;
pub mod script;
mod sha256;
pub mod state;
pub mod train;
pub mod world;
