//! Additive X-11 seasonal adjustment of one monthly series, and the desk
//! file, worked from document 01 ("Exact scope and rules for the additive
//! X-11 desk") and requests 1/12 to 3/12 and 5/12 to 9/12 of document 02 alone.
//! It is meant to stand beside another program: the two are given the same
//! series and files, and their tables and bytes are compared.
//!
//! Plainness comes before speed.  Every filter first gives exact fractions;
//! a table of fractions is then rounded once.  Months are found by their
//! labels (calendar year and month), never by arithmetic on the start month.

#![forbid(unsafe_code)]

pub mod calendar;
pub mod columns;
pub mod decompose;
pub mod desk;
pub mod exact;
pub mod exact_b;
pub mod extremes;
pub mod fraction;
pub mod generators;
pub mod noise;
pub mod pass;
pub mod print;
pub mod rounding;
pub mod rows;
pub mod seasonality;
pub mod sheet;
pub mod spread;
pub mod whole;
