//! Writes two stores in memory, of which the second has the documents of the first, and prints a document of it.

use std::error::Error;
use zevkhadun::{Store, Writer};

fn main() -> Result<(), Box<dyn Error>> {
    let mut writer = Writer::new(Vec::new());
    writer.put(b"apple")?;
    writer.put(b"banana")?;
    let fruits = writer.close()?;

    let mut writer = Writer::new(Vec::new());
    writer.stack(&Store::open(&fruits)?)?;
    writer.put(b"carrot")?;
    let all = writer.close()?;

    let store = Store::open(&all)?;
    println!("{} documents, {:?}", store.len(), store.get(1)?);
    Ok(())
}
