/* Writing: stores of many block sizes are read back, each refusal leaves what it says, stacking in two orders gives one
 * file, and a writer of any numbers is safe. Arrays are as short as can be, so that a sanitizer sees what goes too far.
 */
#include "compared.h"

enum { MOST = 400 };

/* A store that is written to memory. */
typedef struct output {
    uint8_t *bytes;
    size_t len;
    zevk_writer writer;
    uint32_t *starts;
    size_t starts_len;
    zevk_block *table;
    size_t table_len;
} output;

static void append(output *out, const void *bytes, size_t len) {
    out->bytes = (uint8_t *)realloc(out->bytes, out->len + len + 1);
    WANT(out->bytes != NULL);
    if (len > 0) {
        memcpy(out->bytes + out->len, bytes, len);
    }
    out->len += len;
}

/* One more start and one more row, and no more. */
static void grow(output *out) {
    uint32_t *starts = (uint32_t *)malloc((out->starts_len + 1) * sizeof *starts);
    zevk_block *table = (zevk_block *)malloc((out->table_len + 1) * sizeof *table);
    WANT(starts != NULL && table != NULL);
    if (out->starts_len > 0) {
        memcpy(starts, out->starts, out->starts_len * sizeof *starts);
    }
    if (out->table_len > 0) {
        memcpy(table, out->table, out->table_len * sizeof *table);
    }
    free(out->starts);
    free(out->table);
    out->starts = starts;
    out->table = table;
    out->starts_len++;
    out->table_len++;
}

static output begun(size_t block_size) {
    output out;
    memset(&out, 0, sizeof out);
    zevk_writer_begin(&out.writer, block_size);
    WANT(out.writer.block_size == block_size && out.writer.blocks == 0);
    WANT(out.writer.docs == 0 && out.writer.bytes == 0);
    out.starts = (uint32_t *)malloc(1);
    out.table = (zevk_block *)malloc(1);
    WANT(out.starts != NULL && out.table != NULL);
    return out;
}

static void freed(output *out) {
    free(out->bytes);
    free(out->starts);
    free(out->table);
}

static void put(output *out, const void *document, size_t len) {
    size_t count = 77;
    zevk_writer before = out->writer;
    uint32_t answer;
    while ((answer = zevk_writer_put(&out->writer, out->starts, out->starts_len, out->table, out->table_len, len,
                                     &count)) == ZEVK_NO_ROOM) {
        WANT(memcmp(&before, &out->writer, sizeof before) == 0 && count == 77);
        WANT(out->starts_len < before.docs + 2 || out->table_len <= before.blocks);
        grow(out);
    }
    WANT(answer == ZEVK_DONE && count <= out->starts_len);
    append(out, document, len);
    append(out, out->starts, count * sizeof *out->starts);
}

static void end_block(output *out) {
    size_t count = 77;
    zevk_writer before = out->writer;
    while (zevk_writer_end_block(&out->writer, out->starts, out->starts_len, out->table, out->table_len, &count)
           == ZEVK_NO_ROOM) {
        WANT(memcmp(&before, &out->writer, sizeof before) == 0 && count == 77 && before.docs > 0);
        grow(out);
    }
    append(out, out->starts, count * sizeof *out->starts);
    WANT(out->writer.docs == 0 && out->writer.bytes == 0);
}

static void close_file(output *out, uint8_t period) {
    size_t len = 77, short_len = 0;
    uint8_t none = 3;
    WANT(zevk_writer_close(&out->writer, out->table, out->table_len, 1, &none, 0, &len) == ZEVK_BAD_PERIOD);
    WANT(zevk_writer_close(&out->writer, out->table, out->table_len, 65, &none, 0, &len) == ZEVK_BAD_PERIOD);
    if (out->writer.docs > 0) {
        WANT(zevk_writer_close(&out->writer, out->table, out->table_len, period, &none, 0, &len) == ZEVK_OPEN_BLOCK);
    }
    WANT(len == 77);
    end_block(out);
    WANT(zevk_writer_close(&out->writer, out->table, out->table_len, period, &none, 0, &len) == ZEVK_NO_ROOM);
    WANT(len >= 28 && none == 3);
    uint8_t *end = (uint8_t *)malloc(len);
    WANT(end != NULL);
    WANT(zevk_writer_close(&out->writer, out->table, out->table_len, period, end, len - 1, &short_len) == ZEVK_NO_ROOM);
    WANT(short_len == len);
    WANT(zevk_writer_close(&out->writer, out->table, out->table_len, period, end, len, &len) == ZEVK_DONE);
    append(out, end, len);
    free(end);
}

/* The documents of a test: from one number up to another. */
static output written(size_t block_size, uint8_t period, uint32_t from, uint32_t to) {
    char text[64];
    output out = begun(block_size);
    for (uint32_t id = from; id < to; id++) {
        put(&out, text, document(id, text));
    }
    close_file(&out, period);
    return out;
}

/* The store has these documents, by its own table and by that of its writer. */
static void has_documents(const output *out, uint32_t from, uint32_t to) {
    size_t count = 0;
    uint32_t num_docs = 0;
    zevk_block *table = (zevk_block *)malloc(out->writer.blocks * sizeof *table + 1);
    WANT(table != NULL);
    WANT(zevk_open(out->bytes, out->len, table, out->writer.blocks, &count, &num_docs) == ZEVK_DONE);
    WANT(count == out->writer.blocks && num_docs == to - from);
    for (size_t row = 0; row < count; row++) {
        WANT(table[row].end_doc == out->table[row].end_doc && table[row].end_byte == out->table[row].end_byte);
    }
    for (uint32_t id = 0; id < num_docs; id++) {
        zevk_place place;
        WANT(zevk_locate(out->bytes, out->len, out->table, count, id, &place) == ZEVK_DONE);
        WANT(is_document(out->bytes, out->len, place, from + id));
    }
    WANT(compared(out->bytes, out->len) == ZEVK_DONE);
    free(table);
}

static void stack(output *out, const output *other) {
    size_t count = 0, len = 0;
    zevk_writer before = out->writer;
    uint32_t answer;
    end_block(out);
    before = out->writer;
    while ((answer = zevk_writer_stack(&out->writer, out->table, out->table_len, other->bytes, other->len, &count,
                                       &len)) == ZEVK_NO_ROOM) {
        WANT(memcmp(&before, &out->writer, sizeof before) == 0 && count == other->writer.blocks && len == 0);
        grow(out);
    }
    WANT(answer == ZEVK_DONE && count == other->writer.blocks && len <= other->len);
    append(out, other->bytes, len);
}

/* (a b) c and a (b c) are one file, that of all their blocks. */
static void is_associative(void) {
    output a = written(50, 8, 0, 30), b = written(1, 3, 30, 31), c = written(16384, 64, 31, 90);
    output left = begun(100), right = begun(100), ab = begun(7), bc = begun(9);
    stack(&ab, &a);
    stack(&ab, &b);
    close_file(&ab, 2);
    stack(&bc, &b);
    stack(&bc, &c);
    close_file(&bc, 5);
    stack(&left, &ab);
    stack(&left, &c);
    close_file(&left, 8);
    stack(&right, &a);
    stack(&right, &bc);
    close_file(&right, 8);
    has_documents(&left, 0, 90);
    WANT(left.len == right.len && memcmp(left.bytes, right.bytes, left.len) == 0);
    output *all[] = {&a, &b, &c, &ab, &bc, &left, &right};
    for (size_t i = 0; i < sizeof all / sizeof *all; i++) {
        freed(all[i]);
    }
}

/* What isn't a store, and a store over an open block, are refused, and change nothing. */
static void refuses_to_stack(void) {
    output out = begun(1000), other = written(50, 8, 0, 20);
    size_t count = 77, len = 77;
    put(&out, "x", 1);
    zevk_writer before = out.writer;
    WANT(zevk_writer_stack(&out.writer, out.table, out.table_len, other.bytes, other.len, &count, &len)
         == ZEVK_OPEN_BLOCK);
    for (size_t cut = 0; cut < other.len; cut++) {
        uint8_t *file = (uint8_t *)tight(other.bytes, cut);
        uint32_t answer = zevk_writer_stack(&out.writer, out.table, out.table_len, file, cut, &count, &len);
        WANT(answer != ZEVK_DONE && answer < ZEVK_NO_MEMORY);
        free(file);
    }
    other.bytes[other.len - 28] = 1;
    other.bytes[other.len - 15] = 0;
    WANT(zevk_writer_stack(&out.writer, out.table, out.table_len, other.bytes, other.len, &count, &len)
         == ZEVK_OLD_VERSION);
    WANT(memcmp(&before, &out.writer, sizeof before) == 0 && count == 77 && len == 77);
    freed(&out);
    freed(&other);
}

/* The greatest lengths and numbers are refused by name. */
static void refuses_what_is_too_large(void) {
    output out = begun(16384);
    size_t count = 77;
    grow(&out);
    grow(&out);
    WANT(zevk_writer_put(&out.writer, out.starts, 2, out.table, 1, 0xfffffff8u, &count) == ZEVK_BLOCK_TOO_LARGE);
    WANT(zevk_writer_put(&out.writer, out.starts, 2, out.table, 1, (size_t)-1, &count) == ZEVK_BLOCK_TOO_LARGE);
    WANT(zevk_writer_put(&out.writer, out.starts, 2, out.table, 1, 0xfffffff7u, &count) == ZEVK_DONE);
    WANT(count == 2 && out.writer.blocks == 1 && out.table[0].end_byte == 0xffffffffu);
    out.table[0].end_doc = 0xffffffffu;
    WANT(zevk_writer_put(&out.writer, out.starts, 2, out.table, 2, 0, &count) == ZEVK_TOO_MANY_DOCS);
    out.table[0].end_doc = 0xfffffffeu;
    WANT(zevk_writer_put(&out.writer, out.starts, 2, out.table, 2, 0, &count) == ZEVK_DONE);
    freed(&out);
}

/* Numbers and rows of any kind: the calls answer, and write nothing beside the arrays. */
static void any_writer_is_safe(uint8_t *file, size_t file_len) {
    uint64_t state = 88172645463325252u;
    uint64_t edges[] = {0, 1, 2, 3, 4, 0x7fffffffu, 0xffffffffu, 0x100000000u, UINT64_MAX / 8, UINT64_MAX - 1,
                        UINT64_MAX};
    for (int round = 0; round < 20000; round++) {
        uint64_t numbers[12];
        for (int i = 0; i < 12; i++) {
            state ^= state << 13;
            state ^= state >> 7;
            state ^= state << 17;
            numbers[i] = state % 3 == 0 ? state : edges[state % 11];
        }
        zevk_writer writer = {numbers[0], numbers[1] % 7, numbers[2] % 5, numbers[3]};
        if (round % 4 == 0) {
            writer.blocks = numbers[1];
            writer.docs = numbers[2];
        }
        size_t starts_len = numbers[4] % 6, table_len = numbers[5] % 20, count = 0, len = 0;
        uint32_t *starts = (uint32_t *)malloc(starts_len * sizeof *starts + 1);
        zevk_block *table = (zevk_block *)malloc(table_len * sizeof *table + 1);
        uint8_t *end = (uint8_t *)malloc(64);
        WANT(starts != NULL && table != NULL && end != NULL);
        for (size_t row = 0; row < table_len; row++) {
            table[row].end_doc = (uint32_t)numbers[(row + 6) % 12];
            table[row].end_byte = numbers[(row + 7) % 12];
        }
        zevk_writer first = writer, second = writer, third = writer;
        uint32_t answer = zevk_writer_close(&writer, table, table_len, (uint8_t)numbers[6], end, 64, &len);
        WANT(answer <= ZEVK_OTHER_WRITER);
        zevk_writer_put(&first, starts, starts_len, table, table_len, numbers[7], &count);
        zevk_writer_end_block(&second, starts, starts_len, table, table_len, &count);
        zevk_writer_stack(&third, table, table_len, file, file_len, &count, &len);
        free(starts);
        free(table);
        free(end);
    }
}

int main(int argc, char **argv) {
    size_t sizes[] = {0, 1, 20, 50, 1000, 16384, SIZE_MAX};
    for (size_t i = 0; i < sizeof sizes / sizeof *sizes; i++) {
        for (uint32_t to = 0; to < MOST; to = 2 * to + 1) {
            output out = written(sizes[i], (uint8_t)(2 + 31 * i % 63), 0, to);
            has_documents(&out, 0, to);
            freed(&out);
        }
    }
    is_associative();
    refuses_to_stack();
    refuses_what_is_too_large();
    size_t len = 0;
    uint8_t *file = loaded(argc, argv, &len);
    any_writer_is_safe(file, len);
    free(file);
    return 0;
}
