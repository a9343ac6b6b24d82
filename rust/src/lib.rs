//! A second program for the memory unit of a DSP and for the builder of its
//! address tables, written from the scope paper (01), its sources and the
//! requests (02) alone.
//!
//! It is an oracle for differential tests and a yardstick for speed. Section
//! names in the comments are those of paper 01; tables are those of source 000;
//! P1, P3 to P6 and P14 are requests of paper 02.

pub mod answer;
pub mod audit;
pub mod bill;
pub mod boundary;
pub mod builder;
pub mod crc;
pub mod dice;
pub mod listing;
pub mod memory;
pub mod meters;
pub mod native;
pub mod parting;
pub mod recording;
pub mod registers;
pub mod slots;
pub mod unit;
pub mod walk;
