// What is done with it: the tick machine and its runs, the item stream, the counts of packets, and
// the program's own check. Stands on paper and make.
pub mod batch;
pub mod check;
pub mod counts;
pub mod directed;
pub mod items;
pub mod machine;
pub mod plans;
pub mod simulate;
pub mod tickwise;
