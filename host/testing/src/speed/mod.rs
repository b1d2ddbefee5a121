//! How fast the search is: problems to measure, the sides that are measured on them, and the table
//! that the program `speed` prints.

pub mod cases;
pub mod growth;
pub mod nights;
pub mod report;
pub mod sides;
pub mod table;
pub mod toulbar2;
