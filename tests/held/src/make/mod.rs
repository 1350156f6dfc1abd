// What is tried: networks, limits, refusals, damage, lists for the writer, texts; from a seed.
// Stands on paper; nothing here names run.
pub mod damage;
pub mod edges;
pub mod generate;
pub mod heavy;
pub mod messages;
pub mod mixture;
pub mod overloads;
pub mod random;
pub mod raw;
pub mod refusals;
pub mod sizes;
pub mod texts;
pub mod tight;
pub mod whole_case;
pub mod writes;
