//! A package with a test of each kind that a report tells apart.

pub fn half(n: u32) -> u32 {
    n / 2
}

#[cfg(test)]
mod tests {
    use super::half;

    #[test]
    fn of_four() {
        assert_eq!(half(4), 2);
    }

    #[test]
    fn of_five() {
        println!("half of five is {}", half(5));
        assert_eq!(half(5), 3);
    }

    #[test]
    #[ignore]
    fn of_a_million() {}
}
