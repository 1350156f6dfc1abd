// 01, as M-103 of 02 corrects it, once more from its words alone: frames, the packed table, its
// answers, the station, the rows; and the table's text, from the page of the examples. Nothing here
// names make or run; a sentence of 01, of 02 or of that page stands above what follows it.
pub mod bits;
pub mod frame;
pub mod network;
pub mod refs;
pub mod rows;
pub mod station;
pub mod table;
pub mod text;
