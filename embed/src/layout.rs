//! Rust's layout of all that crosses, held to the one list that C's is held to as well, `include/nibl.layout`. It is no
//! code: where a size, an alignment or an offset differs, the crate does not compile.

#![allow(non_camel_case_types)]

use core::mem::{align_of, offset_of, size_of};

use crate::gate::Given as nibl_call;
use crate::gate::Written as nibl_answer;
use crate::record::ForEntry as nibl_for;
use crate::record::ForStack as nibl_fors;
use crate::record::PlaceStack as nibl_places;
use crate::record::Record as nibl_record;

const fn size_of_field<T, F>(_: fn(&T) -> &F) -> usize {
    size_of::<F>()
}

macro_rules! NIBL_TYPE {
    ($type:ident, $size:literal, $align:literal) => {
        const _: () = assert!(size_of::<$type>() == $size);
        const _: () = assert!(align_of::<$type>() == $align);
    };
}

macro_rules! NIBL_FIELD {
    ($type:ident, $field:ident, $offset:literal, $size:literal) => {
        const _: () = assert!(offset_of!($type, $field) == $offset);
        const _: () = assert!(size_of_field(|whole: &$type| &whole.$field) == $size);
    };
}

include!(concat!(env!("OUT_DIR"), "/layout.rs"));

#[cfg(test)]
mod tests {
    use std::format;
    use std::path::{Path, PathBuf};
    use std::process::Command;
    use std::string::String;

    use super::*;

    /// The rows of a type, as `tests/layout.c` prints them. The pattern has every field, or it would not compile.
    macro_rules! rows {
        ($type:ident { $($field:ident),* }) => {{
            let $type { $($field: _),* } = $type::default();
            let mut rows = format!("{} {} {}\n", stringify!($type), size_of::<$type>(), align_of::<$type>());
            $(
                let (at, size) = (offset_of!($type, $field), size_of_field(|whole: &$type| &whole.$field));
                rows += &format!("{}.{} {at} {size}\n", stringify!($type), stringify!($field));
            )*
            rows
        }};
    }

    /// Compiles and runs `tests/layout.c`.
    fn of_c() -> String {
        let root = Path::new(env!("CARGO_MANIFEST_DIR"));
        let program = PathBuf::from(env!("OUT_DIR")).join("layout");
        let compiled = Command::new("cc")
            .args(["-std=c11", "-Wall", "-Wextra", "-Werror", "-I"])
            .arg(root.join("../include"))
            .arg(root.join("tests/layout.c"))
            .arg("-o")
            .arg(&program)
            .status();
        assert!(compiled.expect("cc starts").success());
        let run = Command::new(&program).output().expect("it starts");
        String::from_utf8(run.stdout).expect("plain text")
    }

    #[test]
    fn c_and_rust_agree_on_every_field() {
        let rust = [
            rows!(nibl_places { depth, places }),
            rows!(nibl_for {
                var,
                limit,
                step,
                place
            }),
            rows!(nibl_fors { depth, entries }),
            rows!(nibl_record {
                vars,
                flags,
                gosubs,
                dos,
                fors,
                paused
            }),
            rows!(nibl_call {
                inpos,
                outpos,
                sense,
                budget,
                tabled
            }),
            rows!(nibl_answer {
                stop,
                line,
                steps,
                inpos,
                outpos,
                column
            }),
        ];
        assert_eq!(of_c(), rust.concat());
    }
}
