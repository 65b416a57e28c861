//! Prints how long the proved exchange takes beside a plain Rust one, as tables in Markdown.
//!
//! Run `rt lib` in crates/exchange_c, then `cargo run --release` here. `cargo test` compares the
//! answers of the two. Nothing outside this folder and the archive is needed; where LEMON is installed (`liblemon-dev` on
//! Debian) its network simplex is timed too.

use exchange_bench::draw::shapes::shapes;
use exchange_bench::tables::calls::calls;
use exchange_bench::tables::free_hours::free_hours;
use exchange_bench::tables::operations::operations;
use exchange_bench::tables::settling::{guessing, settling, turns};
use exchange_bench::timing::{FEWEST_SAMPLES, MOST_SAMPLES, SAMPLE};

fn main() {
    let shapes = shapes();
    println!(
        "Processor time of one call, in the mean over the tickets of a row. Times are medians of {FEWEST_SAMPLES} to \
         {MOST_SAMPLES} samples of at least {} µs each, those of a row by turns.\n",
        SAMPLE.as_micros()
    );
    println!(
        "Settling goes from the ticket's bytes to the settlement's. LEMON's network simplex finds the best total where there \
         are only free deals: timed are building its graph from the ticket's squares, which it is lent, and its run, with \
         the quicker of two first flows (none, and everybody's hours).\n"
    );
    settling(&shapes).print();
    println!(
        "\nThe guess and its test go from squares to squares, in euros and with every amount times 100; so does the method \
         of turns, which settles where the test refuses.\n"
    );
    guessing(&shapes).print();
    println!();
    turns(&shapes).print();
    println!();
    operations().print();
    println!(
        "\nA call on an open market gives one pair other terms; the market is settled anew and holds the settlement and \
         everybody's free hours. Beside it the ticket as it is then is settled from its bytes.\n"
    );
    calls().print();
    println!(
        "\nEverybody's free hours are held: all 32 numbers are read from the market's list. Beside it they are summed over all \
         deals of the settlement in the same list. Both are in plain Rust.\n"
    );
    free_hours().print();
}
