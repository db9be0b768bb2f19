//! A second, plain making of the programs `tables` and `rehearse`, and random texts and scripts to compare programs with.

pub mod answer;
pub mod bytes;
pub mod damage;
pub mod difference;
pub mod fault;
pub mod hash;
pub mod large;
pub mod limits;
pub mod meaning;
pub mod measure;
pub mod node;
pub mod notation;
pub mod pairs;
pub mod print;
pub mod program;
pub mod random;
pub mod rehearse;
pub mod sample;
pub mod table;
pub mod texts;
pub mod words;
pub mod write;
