//! The reference, unchanged, with doors to its private functions (crc.doors, format.doors).
#![allow(dead_code, unexpected_cfgs, unused_imports, private_interfaces)]

pub mod crc;
pub mod error;
pub mod format;
