//! The model as a static library for a C program: the same files, without the programs.

pub mod ack;
pub mod bits;
pub mod element;
pub mod interface;
pub mod interrogate_ack;
pub mod layout;
pub mod message;
pub mod profile;
pub mod refusal;
pub mod request;
pub mod value;
pub mod write;
