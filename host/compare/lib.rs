//! Comparisons of the library and the bench program with the second program.

pub mod any;
pub mod bench;
pub mod damage;
pub mod edges;
pub mod entries;
pub mod generate;
pub mod inputs;
pub mod judge;
pub mod lengths;
pub mod lines;
pub mod marks;
pub mod page_marks;
pub mod pages;
pub mod plans;
pub mod random;
pub mod report;
pub mod shrink;
pub mod steps;
pub mod streams;
pub mod tally;
pub mod writer;
pub mod wrongs;
