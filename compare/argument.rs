// The arguments of a program, each a whole number with a number that stands for it where it is left out.

pub fn whole(at: usize, otherwise: usize) -> usize {
    match std::env::args().nth(at) {
        Some(word) => word.parse().expect("a whole number"),
        None => otherwise,
    }
}
