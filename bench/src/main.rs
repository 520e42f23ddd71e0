//! Times of the product beside plain Rust peers, in one run. A peer does the same work by the same method.

mod batch;
mod bounds;
mod jitter;
mod measure;
mod overload;
mod peer;
mod port;
mod redundancy;
mod table;
mod tables;
mod traffic;

fn main() {
    println!("medians of 201 rounds; the two sides take turns in each round; outputs are not cleared between calls");
    println!("{:<44} {:>12} {:>12} {:>7}", "what", "product", "peer", "ratio");
    table::run();
    bounds::run();
    jitter::run();
    overload::run();
    port::run();
    batch::run();
    redundancy::run();
}
