//! A second, plain making of the program `rehearse`: a whole net in memory, played by a script.

pub mod answered;
pub mod cables;
pub mod change;
pub mod desk;
pub mod item;
pub mod long;
pub mod net;
pub mod order;
pub mod play;
pub mod printer;
pub mod random_net;
pub mod random_step;
pub mod sample;
pub mod step;
pub mod switch;
