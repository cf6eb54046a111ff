//! The original Rust, unchanged, answering questions about its thirty calling conventions, and about
//! three more by questions that stand for theirs.

pub mod agreement;
pub mod asking;
pub mod coverage;
pub mod damage;
pub mod descriptions;
pub mod edge;
pub mod find;
pub mod generate;
pub mod layouts;
pub mod lists;
pub mod lookups;
pub mod numbers;
pub mod random;
pub mod reader;
pub mod records;
pub mod refusals;
pub mod rows;
pub mod shapes;
pub mod sheet;
pub mod spending;
pub mod stack;
pub mod types;
pub mod values;
