// How a part of the comparison is called: PART SEED short|long. Two runs with one seed and one length see the same inputs.
use crate::meshes::Random;

#[derive(Clone, Copy, PartialEq)]
pub enum Length {
    Short,
    Long,
}

impl Length {
    pub fn choose<T>(self, short: T, long: T) -> T {
        match self {
            Length::Short => short,
            Length::Long => long,
        }
    }
}

pub fn arguments() -> (Random, Length) {
    let words: Vec<String> = std::env::args().skip(1).collect();
    let seed = words.first().and_then(|n| n.parse().ok());
    let length = match words.get(1).map(String::as_str) {
        Some("short") => Some(Length::Short),
        Some("long") => Some(Length::Long),
        _ => None,
    };
    match (seed, length, words.len()) {
        (Some(seed), Some(length), 2) => (Random::of(seed), length),
        _ => {
            println!("compare: a part is called with a seed, which is a number below 2^64, and 'short' or 'long', not with {words:?}");
            std::process::exit(2)
        }
    }
}
