/* The calls that read without opening: each beginning of a file, each of its bits changed, and files with several bytes
 * changed, between two pages that nobody may read. The files are one of few layers and the end of one of many.
 *
 * usage: getting HEX
 */
#ifndef _GNU_SOURCE
#define _GNU_SOURCE
#endif
#include <sys/mman.h>
#include <unistd.h>

#include "compared.h"

/* How many documents the store of many layers has, and at most how many bytes. */
enum { MANY = 100, MANY_LEN = 4096 };

/* One page, and how long it is. */
static uint8_t *page;
static size_t page_len;

static void map_page(void) {
    page_len = (size_t)sysconf(_SC_PAGESIZE);
    void *pages = mmap(NULL, 3 * page_len, PROT_NONE, MAP_PRIVATE | MAP_ANONYMOUS, -1, 0);
    WANT(pages != MAP_FAILED);
    page = (uint8_t *)pages + page_len;
    WANT(mprotect(page, page_len, PROT_READ | PROT_WRITE) == 0);
}

/* Compares the calls over some bytes at the end of the page, and at its beginning. */
static uint32_t at_both_ends(const uint8_t *bytes, size_t len) {
    WANT(len <= page_len);
    memcpy(page + page_len - len, bytes, len);
    uint32_t error = compared(page + page_len - len, len);
    memcpy(page, bytes, len);
    WANT(compared(page, len) == error);
    return error;
}

/* Each document by zevk_get, and all by one zevk_get_run. */
static void read_all(const uint8_t *file, size_t len) {
    zevk_place place, run[DOCUMENTS];
    size_t found = 0;
    uint32_t num_docs = 0;
    WANT(zevk_num_docs(file, len, &num_docs) == ZEVK_DONE && num_docs == DOCUMENTS);
    WANT(zevk_get_run(file, len, 0, run, DOCUMENTS, &found) == ZEVK_DONE && found == DOCUMENTS);
    for (uint32_t id = 0; id < DOCUMENTS; id++) {
        WANT(zevk_get(file, len, id, &place) == ZEVK_DONE && is_document(file, len, place, id));
        WANT(is_document(file, len, run[id], id));
    }
    WANT(zevk_get(file, len, DOCUMENTS, &place) == ZEVK_NO_DOCUMENT);
    WANT(zevk_get_run(file, len, DOCUMENTS - 2, run, 3, &found) == ZEVK_NO_DOCUMENT && found == 2);
}

static void beginnings(const uint8_t *file, size_t len) {
    for (size_t cut = 0; cut < len; cut++) {
        WANT((at_both_ends(file, cut) == ZEVK_SHORT_FILE) == (cut < 28));
    }
    WANT(at_both_ends(file, len) == ZEVK_DONE);
}

/* Each bit changed from a byte on. */
static void changed_bits(const uint8_t *file, size_t len, size_t from) {
    uint8_t *bytes = (uint8_t *)tight(file, len);
    size_t stores = 0;
    for (size_t bit = 8 * from; bit < 8 * len; bit++) {
        bytes[bit / 8] ^= (uint8_t)(1u << (bit % 8));
        stores += at_both_ends(bytes, len) == ZEVK_DONE;
        bytes[bit / 8] ^= (uint8_t)(1u << (bit % 8));
    }
    WANT(stores > 0 && stores < 8 * (len - from));
    free(bytes);
}

/* A few bytes at the end of the file, where index and footer are, have any value, and some files are cut. */
static void changed_bytes(const uint8_t *file, size_t len) {
    size_t end_len = len < 200 ? len : 200;
    srand(2);
    for (int round = 0; round < 3000; round++) {
        uint8_t *bytes = (uint8_t *)tight(file, len);
        for (int changes = rand() % 4; changes >= 0; changes--) {
            bytes[len - 1 - (size_t)rand() % end_len] = (uint8_t)rand();
        }
        at_both_ends(bytes, round % 8 == 0 ? (size_t)rand() % len : len);
        free(bytes);
    }
}

/* Writes a store of a document in each block and two entries in each run, and returns its length and where its data
 * ends.
 */
static size_t many_layers(uint8_t *file, size_t *data_len) {
    zevk_writer writer;
    zevk_block table[MANY];
    uint32_t starts[2];
    char text[64];
    size_t len = 0, count = 0, end_len = 0;
    zevk_writer_begin(&writer, 0);
    for (uint32_t id = 0; id < MANY; id++) {
        size_t document_len = document(id, text);
        WANT(len + document_len + sizeof starts <= MANY_LEN);
        WANT(zevk_writer_put(&writer, starts, 2, table, MANY, document_len, &count) == ZEVK_DONE && count == 2);
        memcpy(file + len, text, document_len);
        memcpy(file + len + document_len, starts, sizeof starts);
        len += document_len + sizeof starts;
    }
    *data_len = len;
    WANT(zevk_writer_close(&writer, table, MANY, 2, file + len, MANY_LEN - len, &end_len) == ZEVK_DONE);
    return len + end_len;
}

int main(int argc, char **argv) {
    size_t len = 0;
    uint8_t *file = loaded(argc, argv, &len);
    map_page();
    read_all(file, len);
    beginnings(file, len);
    changed_bits(file, len, 0);
    changed_bytes(file, len);
    free(file);
    uint8_t many[MANY_LEN];
    size_t data_len = 0;
    len = many_layers(many, &data_len);
    beginnings(many, len);
    changed_bits(many, len, data_len);
    changed_bytes(many, len);
    return 0;
}
