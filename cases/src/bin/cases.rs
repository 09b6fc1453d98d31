//! The case driver of the proved library: a case a line on standard input, what each call left a line on standard
//! output.

#![forbid(unsafe_code)]

use model::case::{drive_by, serve};

fn main() -> std::io::Result<()> {
    serve(|line| drive_by(line, cases::run))
}
