//! Reading a file that isn't opened, and checking one.

use crate::error::{check, Refusal};
use crate::raw::{self, Place};
use std::{error, fmt};

/// The bytes of a document, by the bytes of the file alone: no table is made and no memory is taken.
///
/// The call reads the footer and the part of the index that it needs, and finds damage only there: of a file whose
/// index is damaged it may give other bytes of the file. To get many documents, open a [`Store`](crate::Store).
///
/// # Errors
///
/// Those of a file: [`ShortFile`](Refusal::ShortFile), [`BadVersion`](Refusal::BadVersion),
/// [`BadBlockKind`](Refusal::BadBlockKind), [`BadPeriod`](Refusal::BadPeriod), [`BadOffset`](Refusal::BadOffset),
/// [`BadIndex`](Refusal::BadIndex). [`NoDocument`](Refusal::NoDocument);
/// [`DamagedDocument`](Refusal::DamagedDocument).
///
/// ```
/// # let mut writer = zevkhadun::Writer::new(Vec::new());
/// # writer.put(b"apple")?;
/// # let file = writer.close()?;
/// assert_eq!(zevkhadun::get(&file, 0)?, b"apple");
/// assert_eq!(zevkhadun::get(&file, 1), Err(zevkhadun::Refusal::NoDocument));
/// # Ok::<(), Box<dyn std::error::Error>>(())
/// ```
pub fn get(file: &[u8], doc_id: u32) -> Result<&[u8], Refusal> {
    let mut place = Place::default();
    // SAFETY: the pointer and the length are those of a slice, and the place is ours.
    check(unsafe { raw::zevk_get(file.as_ptr(), file.len(), doc_id, &mut place) })?;
    Ok(place.of(file))
}

/// The number of documents, by the footer and the top layer of the index.
///
/// # Errors
///
/// Those of a file, as for [`get`].
pub fn num_docs(file: &[u8]) -> Result<u32, Refusal> {
    let mut count = 0;
    // SAFETY: the pointer and the length are those of a slice, and the count is ours.
    check(unsafe { raw::zevk_num_docs(file.as_ptr(), file.len(), &mut count) })?;
    Ok(count)
}

/// Checks a whole file: the footer, the index, that the blocks cover the data, and that each block says where its
/// documents lie. After `Ok` every document of the file is found. The format has no checksums, so bytes of documents
/// that changed are not noticed.
///
/// # Errors
///
/// The first [`Fault`] of the file.
///
/// ```
/// # let mut writer = zevkhadun::Writer::new(Vec::new());
/// # writer.put(b"apple")?;
/// # let mut file = writer.close()?;
/// use zevkhadun::{FaultPlace, Refusal};
///
/// zevkhadun::verify(&file)?;
/// file[5] = 0xff; // in the table of the only block
/// let fault = zevkhadun::verify(&file).unwrap_err();
/// assert_eq!(fault.refusal, Refusal::DamagedDocument);
/// assert_eq!(fault.place, FaultPlace::Document { doc_id: 0 });
/// # Ok::<(), Box<dyn std::error::Error>>(())
/// ```
pub fn verify(file: &[u8]) -> Result<(), Fault> {
    let mut fault = raw::Fault::default();
    // SAFETY: the pointer and the length are those of a slice, and the fault is ours.
    let answer = unsafe { raw::zevk_check(file.as_ptr(), file.len(), &mut fault) };
    check(answer).map_err(|refusal| Fault {
        refusal,
        place: FaultPlace::of(refusal, fault),
    })
}

/// Where a file first breaks the format, and how.
///
/// ```
/// let fault = zevkhadun::verify(b"no store").unwrap_err();
/// assert_eq!(fault.to_string(), "file: the file is shorter than a footer");
/// ```
#[derive(Clone, Copy, Debug, PartialEq, Eq)]
#[non_exhaustive]
pub struct Fault {
    /// The error.
    pub refusal: Refusal,
    /// Its place.
    pub place: FaultPlace,
}

/// The place of a fault in a file. Offsets are counted in bytes from the beginning of the file.
///
/// ```
/// # let mut file = zevkhadun::Writer::new(Vec::new()).close()?;
/// use zevkhadun::FaultPlace;
///
/// file[0] = 0x00; // the index of a store without documents is its first byte
/// let fault = zevkhadun::verify(&file).unwrap_err();
/// assert_eq!(fault.place, FaultPlace::LayerList { byte: 0 });
/// # Ok::<(), zevkhadun::Error>(())
/// ```
#[derive(Clone, Copy, Debug, PartialEq, Eq)]
#[non_exhaustive]
pub enum FaultPlace {
    /// The footer, or no place of the file: memory ran out.
    File,
    /// The list of the layers' ends, with which the index begins.
    LayerList {
        /// The offset of the list.
        byte: usize,
    },
    /// A run of a layer of the index.
    Run {
        /// The offset of the run.
        byte: usize,
        /// The layer, the bottom one at 0.
        layer: u32,
    },
    /// The index is sound, but its blocks don't cover the data.
    Cover {
        /// The offset of the index.
        byte: usize,
    },
    /// A document that is damaged.
    Document {
        /// Its number.
        doc_id: u32,
    },
}

impl FaultPlace {
    fn of(refusal: Refusal, fault: raw::Fault) -> FaultPlace {
        let raw::Fault {
            byte,
            layer,
            doc_id,
        } = fault;
        match (refusal, layer) {
            (Refusal::DamagedDocument, _) => FaultPlace::Document { doc_id },
            (Refusal::BadIndex, raw::LAYER_LIST) => FaultPlace::LayerList { byte },
            (Refusal::BadIndex, raw::LAYER_COVER) => FaultPlace::Cover { byte },
            (Refusal::BadIndex, layer) => FaultPlace::Run { byte, layer },
            _ => FaultPlace::File,
        }
    }
}

impl fmt::Display for FaultPlace {
    fn fmt(&self, f: &mut fmt::Formatter<'_>) -> fmt::Result {
        match self {
            FaultPlace::File => f.write_str("file"),
            FaultPlace::LayerList { byte } => write!(f, "list of layers at byte {byte}"),
            FaultPlace::Run { byte, layer } => write!(f, "run of layer {layer} at byte {byte}"),
            FaultPlace::Cover { byte } => write!(f, "blocks of the index at byte {byte}"),
            FaultPlace::Document { doc_id } => write!(f, "document {doc_id}"),
        }
    }
}

impl fmt::Display for Fault {
    fn fmt(&self, f: &mut fmt::Formatter<'_>) -> fmt::Result {
        write!(f, "{}: {}", self.place, self.refusal)
    }
}

impl error::Error for Fault {
    fn source(&self) -> Option<&(dyn error::Error + 'static)> {
        Some(&self.refusal)
    }
}
