//! Everything that is tested, in one program.

mod calls;
mod common;
mod coverage;
mod edge;
mod every_count;
mod find;
mod generate;
mod layouts;
mod lists;
mod riscv;
mod shapes;
mod sheet;
mod stack;
mod types;
