//! A harness of its own, which lists its tests as AWKWARD_LIST has it.

use std::io::{stdout, Write};
use std::{env, process};

fn main() {
    match env::var("AWKWARD_LIST").as_deref() {
        Ok("fails") => process::exit(5),
        Ok("bytes") => stdout().write_all(b"\xff: test\n").unwrap(),
        _ if env::args().any(|it| it == "--ignored") => {}
        Ok("separator") => println!("one\u{2028}name: test"),
        Ok("nul") => println!("one\0name: test\ntwo: test"),
        Ok("many") => (0..300).for_each(|it| println!("test_{it}: test")),
        _ => {}
    }
}
