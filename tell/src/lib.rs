//! The run of a script told in words: what each line asked, the answer by name, what went out, and what changed in table and room. All of it
//! is made from the rows that a program prints for the script with looking lines put in; the rows stay the truth. And the service screen: what stands in each slot at a
//! script's end, a row a slot.

mod answer;
mod asked;
mod changed;
mod look;
mod out;
mod page;
mod plan;
mod program;
mod refusals;
mod screen;
mod seen;
mod signal;
mod telling;
mod words;

pub use page::Page;
pub use plan::{plan, sent, Line, Part};
pub use program::Program;
pub use refusals::{Refusal, REFUSALS};
pub use screen::{screen, unread, with_screen};
pub use telling::{tell, Trouble};
