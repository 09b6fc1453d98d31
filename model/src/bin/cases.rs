//! The case driver: a case a line on standard input, what each call left a
//! line on standard output.

#![forbid(unsafe_code)]

use model::case::{drive, serve};

fn main() -> std::io::Result<()> {
    serve(drive)
}
