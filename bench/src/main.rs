//! Measures the proved code beside a plain Rust twin, the original and a plain vector.
//!
//!     bench count ENGINE INPUT    runs each operation once, for a program that counts instructions
//!     bench report COUNTS         measures times, and writes the tables; COUNTS holds what was counted

mod count;
mod index;
mod inputs;
mod original;
mod plain;
mod proved;
mod report;
mod times;
mod twin;

fn main() {
    let arguments: Vec<String> = std::env::args().skip(1).collect();
    match arguments.iter().map(String::as_str).collect::<Vec<_>>()[..] {
        ["count", engine, input] => count::run(engine, input.parse().unwrap()),
        ["report", counts] => report::write(&count::Counts::read(counts)),
        _ => panic!("count ENGINE INPUT, or report COUNTS"),
    }
}
