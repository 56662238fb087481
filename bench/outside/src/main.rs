//! Times workloads over tantivy's document store, and prints what `crates/bench_store` prints of them.
//!
//! usage: tantivy_side WORKLOAD [key=number ...]
//!
//! WORKLOAD: write, open, get_uniform, get_hot, get_zipf, get_seq, iter_raw or stack. Keys: n documents, l bytes of
//! each, bs bytes of a block, cap blocks of a cache, q questions, hot documents that are asked for most, k stores
//! stacked. Standard output has a line `NAME COUNT NANOSECONDS`, and standard error `# NAME check=NUMBER`.

mod documents;
mod numbers;
mod stores;
mod words;
mod workloads;

use std::error::Error;
use words::Words;

fn main() -> Result<(), Box<dyn Error>> {
    let mut given = std::env::args().skip(1);
    let name = given
        .next()
        .ok_or("usage: tantivy_side WORKLOAD [key=number ...]")?;
    let words = Words::read(given)?;
    let told = workloads::run(&name, &words)?;
    println!("{name} {} {}", told.count, told.time.as_nanos());
    eprintln!("# {name} check={}", told.check);
    Ok(())
}
