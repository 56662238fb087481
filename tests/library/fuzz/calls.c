/* The calls of the library for C over any bytes. LLVMFuzzerTestOneInput is what a fuzzer calls; with -DREPLAY this is a
 * program that does every line of a corpus, which is hexadecimal text.
 *
 * The first byte of an input says what is done: a file is read, a store is written by calls as they are meant, or the
 * writer's calls get numbers and rows of any value. What the library is given ends at a page without rights.
 *
 * usage: replay CORPUS
 */
#ifndef _GNU_SOURCE
#define _GNU_SOURCE
#endif
#include <sys/mman.h>
#include <unistd.h>

#include "compared.h"

enum { MOST = 1 << 16, ROWS = 12, STARTS = 20, END_LEN = 512, DOCUMENT_LEN = 64 };

/* What is left of an input. */
typedef struct input {
    const uint8_t *at;
    size_t len;
} input;

static uint8_t next_byte(input *from) {
    if (from->len == 0) {
        return 0;
    }
    from->len--;
    return *from->at++;
}

/* A number of as many bytes as the next byte says, so that small and large ones are likely. */
static uint64_t next_number(input *from) {
    uint64_t number = 0;
    for (unsigned count = next_byte(from) % 9; count > 0; count--) {
        number = number << 8 | next_byte(from);
    }
    return number;
}

/* Bytes that end at a page without rights. */
typedef struct guarded {
    uint8_t *pages;
    size_t len;
} guarded;

static guarded guarded_of(size_t most) {
    size_t page = (size_t)sysconf(_SC_PAGESIZE);
    size_t len = (most + page - 1) / page * page;
    void *pages = mmap(NULL, len + page, PROT_READ | PROT_WRITE, MAP_PRIVATE | MAP_ANONYMOUS, -1, 0);
    WANT(pages != MAP_FAILED);
    WANT(mprotect((uint8_t *)pages + len, page, PROT_NONE) == 0);
    guarded made = {(uint8_t *)pages, len};
    return made;
}

/* The last `len` bytes before the page, as they were left or as these bytes. */
static uint8_t *last(guarded to, size_t len, const void *bytes) {
    uint8_t *start = to.pages + to.len - len;
    if (bytes != NULL && len > 0) {
        memcpy(start, bytes, len);
    }
    return start;
}

static guarded files, tables, starts_pages, ends;

/* A document by the end of a file and one block: as by zevk_get in a store's file, and within its block in any. */
static void read_elsewhere(const uint8_t *file, size_t len, size_t tail_len, uint32_t id, int is_store) {
    zevk_block_place block;
    zevk_place place, same;
    size_t wanted = 0;
    uint32_t error = zevk_block_of(file + (len - tail_len), tail_len, len, id, &block, &wanted);
    WANT(error != ZEVK_TAIL_TOO_SHORT || (tail_len < wanted && wanted <= len));
    if (error != ZEVK_DONE) {
        return;
    }
    WANT(block.first_doc <= id && id < block.end_doc && block.start <= len && block.len <= len - block.start);
    error = zevk_get_in(file + block.start, block.len, &block, id, &place);
    WANT(error == ZEVK_DONE || error == ZEVK_DAMAGED_DOCUMENT);
    WANT(!is_store || zevk_get(file, len, id, &same) == error);
    if (error == ZEVK_DONE) {
        WANT(block.start <= place.start && place.len <= block.len - (place.start - block.start));
        WANT(!is_store || (place.start == same.start && place.len == same.len));
    }
}

/* A place lies within the file, or the error is one of a document or of the index. */
static void is_bounded(uint32_t error, zevk_place place, size_t len) {
    WANT(error == ZEVK_DONE || error == ZEVK_NO_DOCUMENT || error == ZEVK_DAMAGED_DOCUMENT || error == ZEVK_BAD_INDEX);
    WANT(error != ZEVK_DONE || (place.start <= len && place.len <= len - place.start));
}

/* Documents by an outline of this many rows: as by zevk_get in a store's file. */
static void read_by_outline(const uint8_t *file, size_t len, size_t room, int is_store) {
    zevk_block *rows = (zevk_block *)(void *)last(tables, room * sizeof *rows, NULL);
    zevk_head head;
    uint32_t error = zevk_outline(file, len, rows, room, &head);
    WANT(error == ZEVK_DONE || !is_store);
    if (error != ZEVK_DONE) {
        return;
    }
    WANT(head.rows <= room);
    for (uint32_t id = 0; id < 6; id++) {
        zevk_place place = {1, 2}, same = {1, 2};
        error = zevk_get_by(file, len, rows, head.rows, &head, id * id * id, &place);
        is_bounded(error, place, len);
        if (is_store) {
            WANT(zevk_get(file, len, id * id * id, &same) == error);
            WANT(place.start == same.start && place.len == same.len);
        }
    }
}

/* Every call that reads, beside each other. */
static void read_file(input from) {
    const uint8_t *file = last(files, from.len, from.at);
    uint32_t error = compared(file, from.len);
    zevk_fault fault;
    uint32_t checked = zevk_check(file, from.len, &fault);
    WANT(checked == error || (error == ZEVK_DONE && checked == ZEVK_DAMAGED_DOCUMENT));
    size_t tails[] = {from.len, from.len / 2, from.len < 28 ? from.len : 28};
    for (size_t at = 0; at < sizeof tails / sizeof *tails; at++) {
        for (uint32_t id = 0; id < 4; id++) {
            read_elsewhere(file, from.len, tails[at], id * id * id, error == ZEVK_DONE);
        }
    }
    for (size_t room = 0; room <= ROWS; room += 1 + room) {
        read_by_outline(file, from.len, room, error == ZEVK_DONE);
    }
}

/* The arrays of a writer. */
typedef struct arrays {
    zevk_writer writer;
    uint32_t *starts;
    zevk_block *table;
} arrays;

/* The file that is written, whose bytes the caller puts one after the other. */
static uint8_t written[MOST];
static size_t written_len;

static int put(const void *bytes, size_t len) {
    if (len > sizeof written - written_len) {
        return 0;
    }
    memcpy(written + written_len, bytes, len);
    written_len += len;
    return 1;
}

static int put_document(arrays *to, input *from) {
    size_t len = next_byte(from) % DOCUMENT_LEN, count = 0;
    uint8_t document[DOCUMENT_LEN];
    memset(document, next_byte(from), sizeof document);
    uint32_t error = zevk_writer_put(&to->writer, to->starts, STARTS, to->table, ROWS, len, &count);
    WANT(error == ZEVK_DONE || error == ZEVK_NO_ROOM);
    return error == ZEVK_DONE && put(document, len) && put(to->starts, count * sizeof *to->starts);
}

static int end_block(arrays *to) {
    size_t count = 0;
    uint32_t error = zevk_writer_end_block(&to->writer, to->starts, STARTS, to->table, ROWS, &count);
    WANT(error == ZEVK_DONE || error == ZEVK_NO_ROOM);
    return error == ZEVK_DONE && put(to->starts, count * sizeof *to->starts);
}

/* Stacks a part of the input, which is mostly no store. */
static int stack(arrays *to, input *from) {
    size_t len = next_byte(from), count = 0, data_len = 0;
    len = len < from->len ? len : from->len;
    const uint8_t *file = last(files, len, from->at);
    from->at += len;
    from->len -= len;
    uint32_t error = zevk_writer_stack(&to->writer, to->table, ROWS, file, len, &count, &data_len);
    return error != ZEVK_DONE || put(file, data_len);
}

/* What was written, with its end, is a store of all documents. */
static void close_writer(const arrays *from, uint8_t period) {
    size_t len = 0, wanted = 0;
    uint32_t error = zevk_writer_close(&from->writer, from->table, ROWS, period, NULL, 0, &wanted);
    if (error == ZEVK_BAD_PERIOD || wanted > END_LEN) {
        return;
    }
    WANT(error == ZEVK_NO_ROOM);
    uint8_t *end = last(ends, wanted, NULL);
    WANT(zevk_writer_close(&from->writer, from->table, ROWS, period, end, wanted, &len) == ZEVK_DONE);
    WANT(len == wanted);
    if (put(end, len)) {
        WANT(compared(last(files, written_len, written), written_len) == ZEVK_DONE);
    }
}

static arrays arrays_of(size_t block_size) {
    arrays made;
    made.starts = (uint32_t *)(void *)last(starts_pages, STARTS * sizeof *made.starts, NULL);
    made.table = (zevk_block *)(void *)last(tables, ROWS * sizeof *made.table, NULL);
    zevk_writer_begin(&made.writer, block_size);
    return made;
}

static void write_store(input from) {
    arrays to = arrays_of(next_byte(&from));
    uint8_t period = next_byte(&from);
    int goes_on = 1;
    written_len = 0;
    while (goes_on && from.len > 0) {
        switch (next_byte(&from) % 4) {
        case 0: goes_on = end_block(&to); break;
        case 1: goes_on = end_block(&to) && stack(&to, &from); break;
        default: goes_on = put_document(&to, &from);
        }
    }
    if (goes_on && end_block(&to)) {
        close_writer(&to, period);
    }
}

/* A get by rows and a head of any value. */
static void get_by_any(input *from, const zevk_block *rows, uint32_t id) {
    zevk_place place;
    zevk_head head;
    head.data_len = next_number(from);
    head.rows = next_number(from);
    head.height = next_number(from);
    head.place = next_number(from);
    head.ends = next_number(from);
    head.texts = next_number(from);
    head.period = next_byte(from);
    const uint8_t *file = last(files, from->len, from->at);
    uint32_t error = zevk_get_by(file, from->len, rows, ROWS, &head, id, &place);
    is_bounded(error, place, from->len);
}

/* Numbers, rows and starts of any value: each call ends, and keeps within what it was given. */
static void misuse(input from) {
    arrays to = arrays_of(next_number(&from));
    size_t count = 0, len = 0;
    zevk_place place, run[RUN];
    to.writer.blocks = next_number(&from);
    to.writer.docs = next_number(&from);
    to.writer.bytes = next_number(&from);
    for (size_t at = 0; at < ROWS; at++) {
        uint64_t numbers = next_number(&from);
        to.table[at].end_doc = (uint32_t)numbers;
        to.table[at].guide = (uint32_t)(numbers >> 32);
        to.table[at].end_byte = next_number(&from);
    }
    uint32_t id = (uint32_t)next_number(&from);
    uint8_t period = next_byte(&from), call = next_byte(&from);
    const uint8_t *file = last(files, from.len, from.at);
    switch (call % 7) {
    case 0: zevk_writer_put(&to.writer, to.starts, STARTS, to.table, ROWS, next_number(&from), &count); break;
    case 1: zevk_writer_end_block(&to.writer, to.starts, STARTS, to.table, ROWS, &count); break;
    case 2: zevk_writer_stack(&to.writer, to.table, ROWS, file, from.len, &count, &len); break;
    case 3: zevk_writer_close(&to.writer, to.table, ROWS, period, last(ends, period, NULL), period, &len); break;
    case 4: zevk_locate(file, from.len, to.table, ROWS, id, &place); break;
    case 5: get_by_any(&from, to.table, id); break;
    default: zevk_locate_run(file, from.len, to.table, ROWS, id, run, RUN, &count);
    }
}

int LLVMFuzzerTestOneInput(const uint8_t *data, size_t size);

int LLVMFuzzerTestOneInput(const uint8_t *data, size_t size) {
    input from = {data, size < MOST ? size : MOST};
    if (files.pages == NULL) {
        files = guarded_of(MOST);
        tables = guarded_of(ROWS * sizeof(zevk_block));
        starts_pages = guarded_of(STARTS * sizeof(uint32_t));
        ends = guarded_of(END_LEN);
    }
    switch (next_byte(&from) % 4) {
    case 0: write_store(from); break;
    case 1: misuse(from); break;
    default: read_file(from);
    }
    return 0;
}

#ifdef REPLAY
int main(int argc, char **argv) {
    static uint8_t bytes[MOST];
    static char line[2 * MOST + 2];
    unsigned byte = 0;
    size_t inputs = 0;
    WANT(argc == 2);
    FILE *corpus = fopen(argv[1], "r");
    WANT(corpus != NULL);
    while (fgets(line, sizeof line, corpus) != NULL) {
        size_t len = 0;
        while (sscanf(line + 2 * len, "%2x", &byte) == 1) {
            bytes[len++] = (uint8_t)byte;
        }
        LLVMFuzzerTestOneInput(bytes, len);
        inputs++;
    }
    fclose(corpus);
    WANT(inputs > 0);
    printf("%zu inputs\n", inputs);
    return 0;
}
#endif
