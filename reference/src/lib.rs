//! A second implementation of the stock cache, written from papers 00 and 01, requests (a) to (d) of
//! paper 02 and the open points decided for them.

mod cached;
pub mod calls;
pub mod field;
pub mod generator;
pub mod history;
pub mod lines;
pub mod plant;
pub mod random;
pub mod refusal;
pub mod serve;
mod value;
pub mod walk;
