//! The library's calls and types, as `zevkhadun.h` declares them. A test compares both.

/// Where a block of documents ends, and a number that makes gets quick.
#[repr(C)]
#[derive(Clone, Copy, Default)]
pub(crate) struct Block {
    pub(crate) end_doc: u32,
    guide: u32,
    end_byte: usize,
}

/// The numbers of an outline, which only the library reads, but for how many rows there are and how many layers lie
/// below.
#[repr(C)]
#[derive(Clone, Copy, Default)]
pub(crate) struct Head {
    data_len: usize,
    pub(crate) rows: usize,
    pub(crate) height: usize,
    place: usize,
    ends: usize,
    texts: usize,
    period: u8,
}

/// Where a document lies in its file.
#[repr(C)]
#[derive(Clone, Copy, Default)]
pub(crate) struct Place {
    pub(crate) start: usize,
    pub(crate) len: usize,
}

/// Where a block of documents lies in its file.
#[repr(C)]
#[derive(Clone, Copy, Default)]
pub(crate) struct BlockPlace {
    pub(crate) first_doc: u32,
    pub(crate) end_doc: u32,
    pub(crate) start: usize,
    pub(crate) len: usize,
}

/// The first place at which a file breaks the format.
#[repr(C)]
#[derive(Clone, Copy, Default)]
pub(crate) struct Fault {
    pub(crate) byte: usize,
    pub(crate) layer: u32,
    pub(crate) doc_id: u32,
}

/// The layer of a fault in the list of the layers' ends.
pub(crate) const LAYER_LIST: u32 = u32::MAX;

/// The layer of the fault of an index whose blocks don't cover the data.
pub(crate) const LAYER_COVER: u32 = u32::MAX - 1;

/// The numbers of a writer, which only the library changes.
#[repr(C)]
#[derive(Clone, Copy, Default)]
pub(crate) struct Writer {
    block_size: usize,
    pub(crate) blocks: usize,
    pub(crate) docs: usize,
    bytes: usize,
}

extern "C" {
    pub(crate) fn zevk_get(file: *const u8, file_len: usize, doc_id: u32, place: *mut Place)
        -> u32;
    pub(crate) fn zevk_get_run(
        file: *const u8,
        file_len: usize,
        first: u32,
        places: *mut Place,
        places_len: usize,
        count: *mut usize,
    ) -> u32;
    pub(crate) fn zevk_num_docs(file: *const u8, file_len: usize, num_docs: *mut u32) -> u32;
    pub(crate) fn zevk_check(file: *const u8, file_len: usize, fault: *mut Fault) -> u32;
    pub(crate) fn zevk_open(
        file: *const u8,
        file_len: usize,
        table: *mut Block,
        table_len: usize,
        count: *mut usize,
        num_docs: *mut u32,
    ) -> u32;
    pub(crate) fn zevk_locate(
        file: *const u8,
        file_len: usize,
        table: *const Block,
        table_len: usize,
        doc_id: u32,
        place: *mut Place,
    ) -> u32;
    pub(crate) fn zevk_locate_run(
        file: *const u8,
        file_len: usize,
        table: *const Block,
        table_len: usize,
        first: u32,
        places: *mut Place,
        places_len: usize,
        count: *mut usize,
    ) -> u32;
    pub(crate) fn zevk_outline(
        file: *const u8,
        file_len: usize,
        rows: *mut Block,
        rows_len: usize,
        head: *mut Head,
    ) -> u32;
    pub(crate) fn zevk_get_by(
        file: *const u8,
        file_len: usize,
        rows: *const Block,
        rows_len: usize,
        head: *const Head,
        doc_id: u32,
        place: *mut Place,
    ) -> u32;
    pub(crate) fn zevk_block_of(
        tail: *const u8,
        tail_len: usize,
        file_len: usize,
        doc_id: u32,
        block: *mut BlockPlace,
        wanted: *mut usize,
    ) -> u32;
    pub(crate) fn zevk_get_in(
        block: *const u8,
        block_len: usize,
        at: *const BlockPlace,
        doc_id: u32,
        place: *mut Place,
    ) -> u32;
    pub(crate) fn zevk_writer_begin(writer: *mut Writer, block_size: usize);
    pub(crate) fn zevk_writer_put(
        writer: *mut Writer,
        starts: *mut u32,
        starts_len: usize,
        table: *mut Block,
        table_len: usize,
        len: usize,
        count: *mut usize,
    ) -> u32;
    pub(crate) fn zevk_writer_end_block(
        writer: *mut Writer,
        starts: *mut u32,
        starts_len: usize,
        table: *mut Block,
        table_len: usize,
        count: *mut usize,
    ) -> u32;
    pub(crate) fn zevk_writer_stack(
        writer: *mut Writer,
        table: *mut Block,
        table_len: usize,
        file: *const u8,
        file_len: usize,
        count: *mut usize,
        len: *mut usize,
    ) -> u32;
    pub(crate) fn zevk_writer_close(
        writer: *const Writer,
        table: *const Block,
        table_len: usize,
        period: u8,
        end: *mut u8,
        end_len: usize,
        len: *mut usize,
    ) -> u32;
}

impl Place {
    /// The bytes of the document, in the file in which the library found it.
    pub(crate) fn of(self, file: &[u8]) -> &[u8] {
        &file[self.start..][..self.len]
    }
}

impl BlockPlace {
    /// Where its bytes are: the offset, and how many.
    pub(crate) fn span(self) -> (usize, usize) {
        (self.start, self.len)
    }
}
