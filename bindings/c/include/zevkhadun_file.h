/* zevkhadun_file.h: stores by path, for C and C++.
 *
 * This is the layer for programs that keep stores in files. It maps a file for reading, and it writes a file that gets
 * its name only once it is whole. The proved calls of zevkhadun.h decide which bytes a store has, and where a document
 * lies in them; the calls of the system here are tested. This prints the documents of a store
 * (bindings/c/examples/print_store.c):
 *
 *     int print_store(const char *path) {
 *         zevk_file *file;
 *         zevk_document document;
 *         int error = zevk_file_open(path, 0, &file);
 *         if (error != 0) return error;
 *         for (uint32_t id = 0; error == 0 && id < zevk_file_num_docs(file); id++) {
 *             error = zevk_file_get(file, id, &document);
 *             if (error == 0) {
 *                 fwrite(document.bytes, 1, document.len, stdout);
 *                 putchar('\n');
 *             }
 *         }
 *         zevk_file_close(file);
 *         return error;
 *     }
 *
 * A call returns 0, or an error: a number above 0 of `enum zevk_refusal` or `enum zevk_path_error`, or, if a call of
 * the system failed, its errno as a negative number; errno itself has it too. zevk_strerror returns the text of each.
 * A call that fails leaves everything that its pointers point to unchanged, unless its comment says otherwise.
 *
 * No file that a writer keeps open has the descriptor 0, 1 or 2, also where the program was started without these: its
 * messages don't get into a store.
 *
 * The rules for callers, threads among them, are at the end of this file.
 */
#ifndef ZEVKHADUN_FILE_H
#define ZEVKHADUN_FILE_H

#include "zevkhadun.h"

#ifdef __cplusplus
extern "C" {
#endif

/* ---- version and errors */

/* The version of this header. */
#define ZEVK_VERSION "0.2.0"

/* Returns the version of the library, such as "0.2.0". */
const char *zevk_version(void);

/* The errors of these calls that are neither of `enum zevk_refusal` nor of the system. The numbers never change. */
enum zevk_path_error {
    ZEVK_BUSY = 64,            /* another writer writes this file */
    ZEVK_NOT_PLAIN_FILE = 65,  /* the name is not that of a plain file */
    ZEVK_FAILED = 66           /* an earlier call of this writer failed */
};

/* Returns the text of an error that a call returned: of the library's own, and of the system's as strerror has it. The
 * text stays as it is. */
const char *zevk_strerror(int error);

/* ---- reading */

/* An open store: the map of its file, and rows of its index. */
typedef struct zevk_file zevk_file;

/* A document: its bytes, which lie in the map of the file, and their number. They stay until the file is closed. */
typedef struct zevk_document {
    const uint8_t *bytes;
    size_t len;
} zevk_document;

/* A flag of zevk_file_open: the whole index is checked, and the store has a table of all its blocks. Opening then takes
 * longer the more blocks there are, and a get takes less time.
 *
 * Without it, opening takes the same short time for each size of file: it checks the footer and the top layer of the
 * index. A get reads and checks the part of the index that it needs; one of the first makes an outline of at most
 * 16 KiB for those after it. In a damaged file a get may give the bytes of something else, which lie in the file all
 * the same. Of a store with few blocks the outline is the table, and gets take as little time. */
#define ZEVK_FILE_CHECKED 8u

/* A flag of zevk_file_open: the gets will be far apart, in a file of which little is in memory. The system then reads
 * no pages ahead, and zevk_file_get asks it for the two pages that it needs at once, and doesn't wait for one after the
 * other. Leave it out for a file that is in memory, since each get then asks the system for nothing. */
#define ZEVK_FILE_SCATTERED 4u

/* Opens the file of this name: maps it, checks its whole index if a flag says so, and sets `file`. `flags` is 0,
 * ZEVK_FILE_CHECKED, ZEVK_FILE_SCATTERED or both.
 *
 * Errors: -EINVAL for any other flag; those of the system; NOT_PLAIN_FILE; the file errors; NO_MEMORY. */
int zevk_file_open(const char *path, unsigned flags, zevk_file **file);

/* Unmaps the file and frees all that belongs to it. NULL is allowed. */
void zevk_file_close(zevk_file *file);

/* Returns the number of documents. */
uint32_t zevk_file_num_docs(const zevk_file *file);

/* Sets `document` to the bytes of a document, where they lie in the map. Nothing is copied.
 *
 * Errors: NO_DOCUMENT; DAMAGED_DOCUMENT; without ZEVK_FILE_CHECKED also BAD_INDEX. */
int zevk_file_get(const zevk_file *file, uint32_t doc_id, zevk_document *document);

/* How many places of documents a cursor finds at a time. */
#define ZEVK_CURSOR_RUN 64

/* A position in a store, from which its documents are read, in order or nearly so. Its memory is the caller's, and
 * nothing has to be freed. The caller reads `doc_id` alone. */
typedef struct zevk_cursor {
    const zevk_file *file;
    uint32_t doc_id;  /* the number of the document that the last call was about */
    uint32_t next;    /* the number of the next one */
    uint32_t at;      /* the number of places that were used */
    uint32_t count;   /* the number of places that were found */
    zevk_place places[ZEVK_CURSOR_RUN];
} zevk_cursor;

/* Sets a cursor before document `first`, which the next zevk_cursor_next returns. */
void zevk_cursor_begin(zevk_cursor *cursor, const zevk_file *file, uint32_t first);

/* Sets `document` to the next one, and moves on. To read in order this is quicker than zevk_file_get.
 *
 * Errors: NO_DOCUMENT at the end of the store, where the cursor stays; DAMAGED_DOCUMENT, after which the next call goes
 * on with the document after it; without ZEVK_FILE_CHECKED also BAD_INDEX, where the cursor stays. */
int zevk_cursor_next(zevk_cursor *cursor, zevk_document *document);

/* Sets `document` to any document, as zevk_file_get does, and the cursor before the one after it. Where the documents
 * are asked for in order this is as quick as zevk_cursor_next, and else as zevk_file_get.
 *
 * Errors: those of zevk_file_get. */
int zevk_cursor_get(zevk_cursor *cursor, uint32_t doc_id, zevk_document *document);

/* Counts, sizes and versions of an open store. */
typedef struct zevk_facts {
    const uint8_t *bytes;  /* the bytes of the file, for zevk_check and the other calls of zevkhadun.h */
    size_t len;            /* how many bytes the file has */
    size_t data_len;       /* how many of them are blocks of documents */
    size_t blocks;         /* the number of blocks with ZEVK_FILE_CHECKED, else 0 */
    uint32_t num_docs;     /* the number of documents */
    uint32_t version;      /* the version of the format: 1, 2 or 3 */
    uint32_t period;       /* how many entries a run of the index has */
} zevk_facts;

/* Sets `facts`. */
void zevk_file_facts(const zevk_file *file, zevk_facts *facts);

/* ---- writing
 *
 * A store is written to a second file, whose name is that of the store with `.part` after it. zevk_file_publish asks
 * the system to keep its bytes, renames it to the name of the store, and asks the system to keep that name. So a crash
 * at any moment leaves under the name what was there before, a file or none, or the whole new file; and after publish
 * returns 0 it leaves the new one.
 *
 * A file is replaced only if the caller asks, by ZEVK_FILE_REPLACE or by zevk_file_append. */

/* A store that is being written. */
typedef struct zevk_file_writer zevk_file_writer;

/* A flag of zevk_file_create: a file that has the name is replaced. */
#define ZEVK_FILE_REPLACE 2u

/* Begins a store without documents for the file of this name, and sets `writer`. `flags` is 0 or ZEVK_FILE_REPLACE.
 * tantivy's block size is 16384 and its period 8; a period is from 2 to 64.
 *
 * Without ZEVK_FILE_REPLACE a plain file that has the name is the error -EEXIST, and nothing is written.
 * zevk_file_publish looks again: a file that got the name meanwhile is that error, and stays. Where the file system can
 * rename without replacing (renameat2 with RENAME_NOREPLACE), as ext4, XFS, Btrfs and tmpfs can, this holds whenever
 * that file came; elsewhere a file that comes between that look and the rename is replaced.
 *
 * Links are followed. Only a plain file is replaced; the new one gets its mode, and its owner and group where the
 * system allows it. Until then it has the mode 0600, so nobody else opens it meanwhile. The second file is locked: one
 * that a crash left is taken over, and one that another writer holds, of this library or of the program zevkhadun, is
 * an error. A pipe, a device or a folder of the second file's name is NOT_PLAIN_FILE, and is not opened; a link of that
 * name is not followed. The folder is opened, and synced at the end.
 *
 * Errors: -EINVAL for any other flag; BAD_PERIOD; -EEXIST and others of the system; NOT_PLAIN_FILE; BUSY; NO_MEMORY. */
int zevk_file_create(const char *path, unsigned flags, size_t block_size, unsigned period, zevk_file_writer **writer);

/* Begins a store with the documents of the one of this name, which it will replace, and sets `writer`. Documents that
 * are put come after them. The blocks of the old store are shared with the new file where the file system can
 * (FICLONE); else the system copies them (copy_file_range), or they are read and written. A period of 0 is that of the
 * old store. Everything else is as zevk_file_create does it with ZEVK_FILE_REPLACE.
 *
 * Errors: those of zevk_file_create with that flag; the file errors; OLD_VERSION for a store of version 1. */
int zevk_file_append(const char *path, size_t block_size, unsigned period, zevk_file_writer **writer);

/* Adds a document, and sets `doc_id` to its number, unless that is NULL. The writer ends a block once its documents
 * exceed the block size. `bytes` may be NULL if `len` is 0.
 *
 * Errors: FAILED; NO_MEMORY, TOO_MANY_DOCS and BLOCK_TOO_LARGE, after which the writer is as it was; those of the
 * system, after which every later call but zevk_file_discard returns FAILED. */
int zevk_file_put(zevk_file_writer *writer, const void *bytes, size_t len, uint32_t *doc_id);

/* Ends the open block, if it has documents: the next document begins a block. zevk_file_stack and zevk_file_publish do
 * it by themselves.
 *
 * Errors: FAILED; NO_MEMORY, after which the writer is as it was; those of the system, as zevk_file_put. */
int zevk_file_end_block(zevk_file_writer *writer);

/* Adds all documents of an open store; its blocks are copied as they are, damaged ones too. The open block is ended
 * first, also if the call then fails.
 *
 * Errors: FAILED; OLD_VERSION for a store of version 1, TOO_MANY_DOCS, NO_MEMORY and the file errors, after which the
 * writer has the documents that it had; those of the system, as zevk_file_put. */
int zevk_file_stack(zevk_file_writer *writer, const zevk_file *file);

/* Returns how many documents were put and stacked. */
uint32_t zevk_file_writer_num_docs(const zevk_file_writer *writer);

/* Ends the store and gives it its name. In any case it frees the writer. After an error the file of the name is as it
 * was and the second file is removed; one case differs: if the last step fails, the sync of the folder, the name has
 * the new file, and a crash may bring the old one back.
 *
 * Errors: FAILED; NO_MEMORY; -EEXIST, as zevk_file_create says, and others of the system. */
int zevk_file_publish(zevk_file_writer *writer);

/* Removes the second file and frees the writer: the file of the name stays as it was. NULL is allowed. errno stays as
 * it is. */
void zevk_file_discard(zevk_file_writer *writer);

/* ---- rules for callers, which no call can check
 *
 * - Any number of threads may use one open file at once, by gets, cursors of their own, facts and zevk_file_stack,
 *   until one of them closes it. One thread at a time uses a cursor, and one a writer. Different files and writers are
 *   independent.
 * - After a fork a writer is used by one of the two processes; the second file stays locked until both have ended or
 *   discarded it. A file may be read and closed by both.
 * - A file that is mapped may be replaced, as zevk_file_publish does; the map stays that of the old file. If another
 *   process cuts it, a read of its bytes ends the program with SIGBUS.
 * - Call none of these in a signal handler. A process that a signal ends leaves the second file of its writer, which
 *   the next writer takes over.
 * - The rules of zevkhadun.h hold here too. */

#ifdef __cplusplus
}
#endif

#endif
