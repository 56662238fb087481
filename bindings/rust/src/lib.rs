//! Document stores: write-once files of byte strings, which are read by number, over a proved library for C.
//!
//! A store is written once, document by document, and numbers them from 0. It is then read by any number of threads and
//! processes. The crate has the library inside and needs no other crate; it is for Linux on x86-64.
//!
//! # Write a file
//!
//! ```no_run
//! # fn main() -> Result<(), zevkhadun::Error> {
//! use zevkhadun::FileWriter;
//!
//! let mut writer = FileWriter::create("fruits.store")?;
//! writer.put(b"apple")?;
//! writer.put(b"banana")?;
//! writer.publish()?; // the file appears whole, or not at all
//! # Ok(())
//! # }
//! ```
//!
//! [`Writer`] writes to any [`std::io::Write`].
//!
//! # Read it
//!
//! ```no_run
//! # fn main() -> Result<(), Box<dyn std::error::Error>> {
//! use zevkhadun::Store;
//!
//! let store = Store::open(std::fs::read("fruits.store")?)?;
//! println!("{} documents, the last one is {:?}", store.len(), store.get(1)?);
//! for document in &store {
//!     println!("{:?}", document?);
//! }
//! # Ok(())
//! # }
//! ```
//!
//! A [`Store`] takes the bytes of a file from any type that has them: a vector, a slice, an `Arc<[u8]>`, or a file that
//! a crate such as `memmap2` mapped. A mapped file must not be cut while it is read, or the program ends with SIGBUS.
//! [`Store::open_without_check`] opens a large file as quickly as a small one, [`get`] reads one document and opens
//! nothing, and [`verify`] checks a whole file.
//!
//! # Read it from elsewhere
//!
//! A [`RangedStore`] reads a file in object storage or on a web server by ranges of it: its end, and then the blocks
//! that the documents are in.
//!
//! # Safety
//!
//! No bytes make a call crash or read out of bounds, which is proved of the library for C. This crate is tested.

#![warn(missing_docs)]

mod block_cache;
mod close_error;
mod documents;
mod error;
mod facts;
mod file_writer;
mod part;
mod ranged;
mod ranged_blocks;
mod ranged_documents;
mod raw;
mod read_error;
mod renaming;
mod rows;
mod store;
mod unopened;
mod writer;

pub use close_error::CloseError;
pub use documents::{Documents, SoundDocuments};
pub use error::{Error, Refusal};
pub use facts::Facts;
pub use file_writer::FileWriter;
pub use ranged::{RangedOptions, RangedStore};
pub use ranged_blocks::BlockPlace;
pub use ranged_documents::RangedDocuments;
pub use read_error::ReadError;
pub use store::Store;
pub use unopened::{get, num_docs, verify, Fault, FaultPlace};
pub use writer::{Options, Writer};

/// The code of README.md.
#[cfg(doctest)]
#[doc = include_str!("../README.md")]
struct Readme;
