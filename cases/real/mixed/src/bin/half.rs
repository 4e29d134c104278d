//! A binary that a test runs.

fn main() {
    println!("{}", mixed::half(8));
}
