//! The command line of the programs.

/// The numbers on the command line, in order; those that are not there are as given here.
pub fn numbers_given<const N: usize>(mut numbers: [u64; N]) -> [u64; N] {
    for (number, word) in numbers.iter_mut().zip(std::env::args().skip(1)) {
        *number = word.parse().unwrap_or_else(|_| {
            eprintln!("{word} is no number");
            std::process::exit(2)
        });
    }
    numbers
}
