//! Counts and sizes of a store.

use crate::error::Refusal;

/// The footer's length in bytes.
const FOOTER_LEN: usize = 28;

/// Counts and sizes of a store. Sizes are in bytes.
///
/// ```
/// # let mut writer = zevkhadun::Writer::new(Vec::new());
/// # writer.put(b"apple")?;
/// # let file = writer.close()?;
/// let facts = zevkhadun::Store::open(&file)?.facts();
/// assert_eq!((facts.version, facts.period), (3, 8));
/// assert_eq!((facts.documents, facts.blocks), (1, Some(1)));
/// assert_eq!(facts.data_bytes + facts.index_bytes + 28, facts.file_bytes);
/// # Ok::<(), Box<dyn std::error::Error>>(())
/// ```
#[derive(Clone, Copy, Debug, PartialEq, Eq)]
#[non_exhaustive]
pub struct Facts {
    /// The version of the format: 1, 2 or 3.
    pub version: u32,
    /// The period of the index: how many entries a run of it has.
    pub period: u8,
    /// How many documents there are.
    pub documents: u32,
    /// How many blocks they lie in; `None` if the store was opened without the check.
    pub blocks: Option<usize>,
    /// The size of the blocks: documents and tables.
    pub data_bytes: usize,
    /// The size of the index.
    pub index_bytes: usize,
    /// The size of the file, with the footer of 28 bytes.
    pub file_bytes: usize,
}

/// What the footer says of the file that it ends.
pub(crate) struct Footer {
    version: u32,
    period: u8,
    data_bytes: usize,
    pub(crate) index_bytes: usize,
}

impl Footer {
    /// That of a file, which nothing was checked of.
    pub(crate) fn of(file: &[u8]) -> Result<Footer, Refusal> {
        let (before, footer) = file
            .split_last_chunk::<FOOTER_LEN>()
            .ok_or(Refusal::ShortFile)?;
        let &[v0, v1, v2, v3, d0, d1, d2, d3, d4, d5, d6, d7, _, period, ..] = footer;
        let data_bytes = u64::from_le_bytes([d0, d1, d2, d3, d4, d5, d6, d7]) as usize;
        Ok(Footer {
            version: u32::from_le_bytes([v0, v1, v2, v3]),
            period,
            data_bytes,
            index_bytes: before.len().saturating_sub(data_bytes),
        })
    }
}

impl Facts {
    /// Those of the file of a store that was opened.
    pub(crate) fn of(file: &[u8], documents: u32, blocks: Option<usize>) -> Result<Facts, Refusal> {
        let footer = Footer::of(file)?;
        Ok(Facts {
            version: footer.version,
            period: if footer.version < 3 { 8 } else { footer.period },
            documents,
            blocks,
            data_bytes: footer.data_bytes,
            index_bytes: footer.index_bytes,
            file_bytes: file.len(),
        })
    }
}
