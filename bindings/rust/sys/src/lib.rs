//! The library for C of Bamsturk, for the crate that has the calls of `data-encoding`. It declares
//! nothing: its header `data_encoding.h` describes the calls.
#![no_std]
