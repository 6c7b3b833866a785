//! Tests of the static library beside the independent implementation, through the C interface.
//!
//! Each group of calls has a program of its own (`limits`, `conversions`, `calls`, ..), which links
//! only the functions of its group. Whatever is passed to the library lies between guards; every
//! output that isn't an input too is filled with garbage first. After each call the number, every
//! output, the work words, the inputs and the guards are compared with what the reference
//! implementation made of the same arguments.

#![deny(unsafe_code)]

pub mod buffer;
pub mod cases;
pub mod claimed;
pub mod compare;
pub mod ffi;
pub mod inputs;
pub mod order;
pub mod run;
pub mod sets;
pub mod spoil;
pub mod sums;
pub mod used;
