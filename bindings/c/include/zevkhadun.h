/* zevkhadun.h: document stores for C and C++.
 *
 * A store is one file of byte strings, its documents, numbered from 0. This library reads a store from bytes in
 * memory, loaded or mapped, and makes the bytes that a program writes to its own file to create one. It keeps nothing
 * between calls, so there is nothing to close. This prints a document of a file whose bytes are in memory
 * (bindings/c/examples/first.c):
 *
 *     uint32_t print_document(const uint8_t *file, size_t len, uint32_t id) {
 *         zevk_place place;
 *         uint32_t error = zevk_get(file, len, id, &place);
 *         if (error == ZEVK_DONE) fwrite(file + place.start, 1, place.len, stdout);
 *         return error;
 *     }
 *
 * Which calls do what:
 *
 * - A document, or some in a row: zevk_get, zevk_get_run, zevk_num_docs. Nothing is opened.
 * - Many documents of one store: zevk_open fills a table in your memory; zevk_locate and zevk_locate_run read by it.
 *   With less memory: zevk_outline fills as many rows as there is room for; zevk_get_by reads by them.
 * - A store in object storage or on a web server: zevk_block_of and zevk_get_in, by reads of ranges of the file.
 * - Whether a file is sound, and where it is not: zevk_check.
 * - A new store: from zevk_writer_begin to zevk_writer_close. You write the file.
 *
 * A call returns ZEVK_DONE, which is 0, or the number of an error. A call that fails leaves everything that its
 * pointers point to unchanged, unless its comment says otherwise. If several errors apply, the first in its comment is
 * returned; NO_MEMORY, where the comment names it, may come in place of any other. The rules for callers are at the end
 * of this file.
 *
 * The library is proved: for every argument that keeps these rules, a call reads and writes no byte outside what it is
 * given, and meets its contract in crates/store_c/src. This header says the same in words, by hand. A few lines of C
 * are only tested: they replace the address of an array of length 0 before each proved call
 * (bindings/c/src/null_arrays.c).
 */
#ifndef ZEVKHADUN_H
#define ZEVKHADUN_H

#include <stddef.h>
#include <stdint.h>

#ifdef __cplusplus
extern "C" {
#endif

/* ---- errors */

/* The numbers up to 16 are the store's own in every language, the others are this library's. They never change.
 *
 * Those marked "file" are the file errors: the bytes are not the file of a store. A call returns the first of them that
 * it finds, in this order: SHORT_FILE, BAD_VERSION, BAD_BLOCK_KIND, BAD_PERIOD, BAD_OFFSET, BAD_INDEX. */
enum zevk_refusal {
    ZEVK_DONE = 0,              /* done */
    ZEVK_SHORT_FILE = 1,        /* file: the file is shorter than a footer */
    ZEVK_BAD_VERSION = 2,       /* file: the footer has an unknown version */
    ZEVK_BAD_BLOCK_KIND = 3,    /* file: the blocks are compressed */
    ZEVK_BAD_OFFSET = 4,        /* file: the index would begin after the footer's first byte */
    ZEVK_BAD_INDEX = 5,         /* file: the index is not one of blocks that cover the data */
    ZEVK_NO_DOCUMENT = 6,       /* the store has no document of this number */
    ZEVK_DAMAGED_DOCUMENT = 7,  /* the block's table doesn't say where the document is */
    ZEVK_NO_MEMORY = 10,        /* out of memory */
    ZEVK_OLD_VERSION = 11,      /* a store of version 1 can't be stacked */
    ZEVK_BLOCK_TOO_LARGE = 13,  /* a block would have 2^32 bytes or more */
    ZEVK_TOO_MANY_DOCS = 14,    /* there would be 2^32 documents or more */
    ZEVK_BAD_PERIOD = 16,       /* file: the period is below 2 or above 64 */
    ZEVK_NO_ROOM = 32,          /* an array of the caller is too short */
    ZEVK_OTHER_TABLE = 33,      /* the table is not the one of the file */
    ZEVK_OPEN_BLOCK = 34,       /* the open block has documents; end it first */
    ZEVK_OTHER_WRITER = 35,     /* the writer or its table is not as these calls left it */
    ZEVK_TAIL_TOO_SHORT = 36,   /* the end of the file lacks the footer or a part of the index */
    ZEVK_OTHER_BLOCK = 37       /* the block doesn't have the document, or has another length */
};

/* A number of bytes that is enough for the text of any error and the zero byte after it. */
#define ZEVK_TEXT_LEN 64

/* Writes the text of an error's number and a zero byte, and returns the length of the text: less than ZEVK_TEXT_LEN.
 * If `text_len` is too short it writes nothing. */
size_t zevk_refusal_text(uint32_t number, uint8_t *text, size_t text_len);

/* ---- reading
 *
 * These take the bytes of the file and nothing else: no table, and no memory. Each reads the footer and the part of the
 * index that it needs, and finds damage only there: with a damaged index it may give another place, which lies within
 * the bytes all the same, or another number of documents. zevk_check and zevk_open check the whole index. */

/* Where a document lies in its file. */
typedef struct zevk_place {
    size_t start;  /* the offset of its first byte */
    size_t len;    /* its length in bytes */
} zevk_place;

/* Sets `place` to where a document lies in the file: its bytes begin at file[place->start].
 *
 * Errors: the file errors; NO_DOCUMENT, for a store's file if and only if it has no document of this number;
 * DAMAGED_DOCUMENT. */
uint32_t zevk_get(const uint8_t *file, size_t file_len, uint32_t doc_id, zevk_place *place);

/* Sets `places` to where the documents lie from `first` on, up to `places_len` of them, and `count` to how many it
 * found. It stops before the first document that fails, number first + *count, and returns the error that zevk_get
 * returns for it: a run up to the end of the store ends with NO_DOCUMENT. It seeks once.
 *
 * Errors: those of zevk_get. `count` and the places before it are set in any case. */
uint32_t zevk_get_run(const uint8_t *file, size_t file_len, uint32_t first, zevk_place *places, size_t places_len,
                      size_t *count);

/* Sets `num_docs` to the number of documents, by the footer and the top layer of the index.
 *
 * Errors: the file errors. */
uint32_t zevk_num_docs(const uint8_t *file, size_t file_len, uint32_t *num_docs);

/* ---- reading by a table
 *
 * A store that is asked often is opened once. Its table has a row for each block; a get looks at a few of them. */

/* A row of a table: where a block of documents ends. A block begins where the one before it ends. `guide` makes gets
 * quick: zevk_open and zevk_outline set it, and no answer depends on it, so it may hold anything. */
typedef struct zevk_block {
    uint32_t end_doc;  /* one more than the number of its last document */
    uint32_t guide;    /* about how many blocks end before a part of the documents, or 0 */
    size_t end_byte;   /* the offset in the file at which it ends */
} zevk_block;

/* Checks the footer and the whole index, fills a row of the table for each block, and sets `count` to the number of
 * blocks and `num_docs` to the number of documents. Other calls take the first `count` rows. You keep the table.
 *
 * Errors: the file errors, where BAD_INDEX may leave anything in the table; NO_ROOM, if the table has fewer than
 * `count` rows: the rows that it has are filled and both numbers set, so a first call with 0 rows finds how many are
 * needed. It takes no other memory. */
uint32_t zevk_open(const uint8_t *file, size_t file_len, zevk_block *table, size_t table_len, size_t *count,
                   uint32_t *num_docs);

/* Sets `place` to where a document lies in the file, by the table that zevk_open filled for these bytes. It takes no
 * memory. With another table the call is safe: a place lies within the bytes, but it may be that of anything.
 *
 * Errors: NO_DOCUMENT, with the table of the file if and only if it has no document of this number; DAMAGED_DOCUMENT;
 * OTHER_TABLE, only if the table is not the one of the file. */
uint32_t zevk_locate(const uint8_t *file, size_t file_len, const zevk_block *table, size_t table_len, uint32_t doc_id,
                     zevk_place *place);

/* Finds the places of the documents from `first` on, as zevk_get_run does, by the table.
 *
 * Errors: those of zevk_locate. `count` and the places before it are set in any case. */
uint32_t zevk_locate_run(const uint8_t *file, size_t file_len, const zevk_block *table, size_t table_len,
                         uint32_t first, zevk_place *places, size_t places_len, size_t *count);

/* ---- reading by an outline
 *
 * The rows of a table are those of the lowest layer of the index. An outline has those of a higher one, each for up to
 * a period of rows of the layer below it, or none: a get looks at a few of its rows, and then reads a part of each
 * layer below. So it takes as much memory as there is, and the more it has, the less time a get takes. A table is the
 * outline with the height 0. */

/* The numbers of an outline. By them a get reads neither the footer nor where the layers of the index end. */
typedef struct zevk_head {
    size_t data_len;  /* the offset in the file of the index, which begins after the blocks */
    size_t rows;      /* how many rows were filled */
    size_t height;    /* how many layers lie below that of the rows */
    size_t place;     /* how many bytes the layers above these take */
    size_t ends;      /* the offset in the index of the numbers that say where these end */
    size_t texts;     /* the offset in the index of these layers */
    uint8_t period;   /* how many entries a full run of the index has */
} zevk_head;

/* Fills the front of `rows` with those of the lowest layer of the index that has no more than `rows_len`, and sets
 * `head`. If each layer has more, head->rows is 0 and head->height the number of layers. It takes the time of reading
 * these rows, and leaves the others. zevk_get_by takes the first head->rows of them, and the head.
 *
 * Errors: the file errors. */
uint32_t zevk_outline(const uint8_t *file, size_t file_len, zevk_block *rows, size_t rows_len, zevk_head *head);

/* Sets `place` to where a document lies in the file, as zevk_get does, by the outline of these bytes. It takes no
 * memory. With other rows or another head the call is safe: a place lies within the bytes, but it may be that of
 * anything.
 *
 * Errors: NO_DOCUMENT, with the outline of the file if and only if it has no document of this number;
 * DAMAGED_DOCUMENT; BAD_INDEX. */
uint32_t zevk_get_by(const uint8_t *file, size_t file_len, const zevk_block *rows, size_t rows_len,
                     const zevk_head *head, uint32_t doc_id, zevk_place *place);

/* ---- reading a file that lies elsewhere
 *
 * A store in object storage, or on a web server, is read by ranges of its file. The end of the file has the index: keep
 * it, and then a document takes one read, of its block. The reads are the caller's (bindings/c/tests/ranges.c):
 *
 *     read the last tail_len bytes of the file, 64 KiB say, or all if it is shorter
 *     while ((error = zevk_block_of(tail, tail_len, file_len, id, &block, &wanted)) == ZEVK_TAIL_TOO_SHORT)
 *         read the last wanted bytes of the file as the tail
 *     read block.len bytes of the file from block.start on
 *     zevk_get_in(bytes, block.len, &block, id, &place)
 *     the document has place.len bytes, from bytes[place.start - block.start] on */

/* Where a block of documents lies in its file. */
typedef struct zevk_block_place {
    uint32_t first_doc;  /* the number of its first document */
    uint32_t end_doc;    /* one more than the number of its last document */
    size_t start;        /* the offset in the file of its first byte */
    size_t len;          /* its length in bytes */
} zevk_block_place;

/* Sets `block` to where the block of a document lies in a file of `file_len` bytes, by its last `tail_len` bytes.
 *
 * Errors: SHORT_FILE, if the file is shorter than a footer or than the tail. TAIL_TOO_SHORT if the tail lacks the
 * footer, where `wanted` is set to 28. The other errors of the footer. TAIL_TOO_SHORT if the tail lacks a part of the
 * index, where `wanted` is set to the length of index and footer; with that many bytes it does not come again.
 * BAD_INDEX. NO_DOCUMENT, for a store's file if and only if it has no document of this number. */
uint32_t zevk_block_of(const uint8_t *tail, size_t tail_len, size_t file_len, uint32_t doc_id, zevk_block_place *block,
                       size_t *wanted);

/* Sets `place` to where a document lies in the file, as zevk_get does, by the bytes of its block. `at` is where the
 * block lies; it may be asked for any document from at->first_doc up to, but not including, at->end_doc.
 *
 * Errors: OTHER_BLOCK, if and only if `doc_id` is not one of these, `block_len` is not at->len, or the block would end
 * at byte 2^64 or past it; DAMAGED_DOCUMENT. */
uint32_t zevk_get_in(const uint8_t *block, size_t block_len, const zevk_block_place *at, uint32_t doc_id,
                     zevk_place *place);

/* ---- checking a file */

/* The first place at which a file breaks the format. */
typedef struct zevk_fault {
    size_t byte;      /* of an index: the offset in the file at which the first run begins that breaks a rule */
    uint32_t layer;   /* of an index: the layer of that run, the bottom one at 0, or one of these two */
    uint32_t doc_id;  /* of a damaged document: its number */
} zevk_fault;

/* The layer of a fault in the list of the layers' ends, with which the index begins. */
#define ZEVK_LAYER_LIST UINT32_MAX

/* The layer of the fault of an index that is sound, but whose blocks don't cover the data. */
#define ZEVK_LAYER_COVER (UINT32_MAX - 1)

/* Checks the whole file: the footer, the whole index, that the blocks cover the data, and that each block says where
 * its documents lie. After DONE every other call finds every document.
 *
 * Errors: the file errors, where BAD_INDEX sets the byte and the layer of `fault`; DAMAGED_DOCUMENT, which sets the
 * number of the first document that is damaged. The other numbers of a fault that is set are 0. It takes no memory. */
uint32_t zevk_check(const uint8_t *file, size_t file_len, zevk_fault *fault);

/* ---- writing
 *
 * A store is written document by document. The caller writes the bytes of a document to its file, and after them what
 * these calls return. The caller keeps all state: the numbers of a writer; `starts`, where the documents of the open
 * block begin; and `table`, a row for each block that was ended, the same table with which the file is read
 * afterwards.
 *
 *     zevk_writer_begin(&writer, 16384);
 *     for each document:
 *         zevk_writer_put(&writer, starts, .., table, .., len, &count);
 *         write the document; write count numbers of starts
 *     zevk_writer_end_block(&writer, starts, .., table, .., &count);
 *     write count numbers of starts
 *     zevk_writer_close(&writer, table, .., 8, end, .., &len);
 *     write len bytes of end
 *
 * The caller may move the arrays between calls. After NO_ROOM make the arrays longer and call again. Numbers of
 * `starts` are written as they are in memory, lowest byte first. The finished file is the one that StoreWriter of crate
 * docstore writes for the same calls, block size and period, byte for byte: version 3. */

/* The numbers of a writer. The caller doesn't change them. */
typedef struct zevk_writer {
    size_t block_size;  /* a block ends once its documents exceed this: their bytes, and eight for each */
    size_t blocks;      /* the number of blocks that were ended: this many rows of the table count */
    size_t docs;        /* the number of documents in the open block: this many of the starts count */
    size_t bytes;       /* the number of bytes that these documents have */
} zevk_writer;

/* Begins a store without documents. It never fails. tantivy's block size is 16384. */
void zevk_writer_begin(zevk_writer *writer, size_t block_size);

/* Adds a document of `len` bytes. The caller writes its bytes to the file, and after them the first `count` numbers of
 * `starts`: none, or the table of the block that this document ends.
 *
 * Errors: NO_ROOM if and only if `starts` has no room for two numbers after those of the open block, or `table` for
 * one more row; TOO_MANY_DOCS after 2^32 - 1 documents; BLOCK_TOO_LARGE if the block with its table would have 2^32
 * bytes or more. */
uint32_t zevk_writer_put(zevk_writer *writer, uint32_t *starts, size_t starts_len, zevk_block *table, size_t table_len,
                         size_t len, size_t *count);

/* Ends the open block, if it has documents. The caller writes the first `count` numbers of `starts` to the file: none,
 * or the table of the block. Call it before zevk_writer_stack and zevk_writer_close.
 *
 * Errors: NO_ROOM if and only if the open block has documents and `starts` has no room for one more number, or `table`
 * for one more row; OTHER_WRITER. */
uint32_t zevk_writer_end_block(zevk_writer *writer, uint32_t *starts, size_t starts_len, zevk_block *table,
                               size_t table_len, size_t *count);

/* Adds all documents of the store whose file these bytes are, with its blocks as they are, damaged ones too. The caller
 * writes the first `len` bytes of that file to its own. `count` is set to the number of blocks of the store.
 *
 * Errors: the file errors; OLD_VERSION for a store of version 1; OPEN_BLOCK; OTHER_WRITER, which may also come in
 * place of the next two; TOO_MANY_DOCS; NO_ROOM if the table has no room for `count` more rows, where `count` is set.
 * It takes no memory. */
uint32_t zevk_writer_stack(zevk_writer *writer, zevk_block *table, size_t table_len, const uint8_t *file,
                           size_t file_len, size_t *count, size_t *len);

/* Writes the end of the file into `end`, the index and the footer, and sets `len` to its length. The caller writes
 * these bytes to the file, which is then whole. `period` is how many entries a run of the index has: 2 to 64,
 * tantivy's is 8. The writer is unchanged, and may go on.
 *
 * Errors: BAD_PERIOD; OPEN_BLOCK; OTHER_WRITER; NO_MEMORY; NO_ROOM if `end` has fewer than `len` bytes, where `len` is
 * set to exactly the length that is needed, so a first call with 0 bytes finds it, and a second one with that many
 * bytes succeeds, NO_MEMORY aside. */
uint32_t zevk_writer_close(const zevk_writer *writer, const zevk_block *table, size_t table_len, uint8_t period,
                           uint8_t *end, size_t end_len, size_t *len);

/* ---- rules for callers, which no call can check
 *
 * - A pointer is aligned for its type, and is not null; with a length of 0 it may be null. A length counts elements
 *   that are there, and they take less than 2^63 bytes.
 * - Memory that a call writes to overlaps nothing else that the call is given. What a call reads doesn't change during
 *   the call. A mapped file that another process cuts ends the program with SIGBUS.
 * - malloc, realloc and free belong to one allocator, whose blocks are aligned for any type. zevk_writer_close takes
 *   memory and frees it before it returns: don't call it in a signal handler, or in the child after a fork of a process
 *   with threads.
 * - Any number of threads may read one file at once, also with one table, while none writes to either. One thread at a
 *   time uses a writer. */

#ifdef __cplusplus
}
#endif

#endif
