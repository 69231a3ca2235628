//! The words of a command line.

/// The number that follows `name`, or `default` where the name does not occur.
pub fn number(name: &str, default: u64) -> u64 {
    let words: Vec<String> = std::env::args().skip(1).collect();
    match words.iter().position(|w| w == name) {
        None => default,
        Some(i) => words
            .get(i + 1)
            .and_then(|w| w.parse().ok())
            .unwrap_or_else(|| panic!("{name} wants a number")),
    }
}
