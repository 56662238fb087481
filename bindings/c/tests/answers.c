/* Prints what a store's file is answered: for each file the number of the refusal of its opening, or how many documents
 * there are and some of them in hexadecimal digits, as tests/answers gets them. Of each file the calls that read
 * without opening have to give the same as those by the table.
 *
 * usage: answers FILE..
 */
#include <inttypes.h>

#include "compared.h"

/* How many of the first documents are printed. */
enum { FIRST = 200 };

/* The bytes of a file. */
static uint8_t *bytes_of(const char *path, size_t *len) {
    FILE *file = fopen(path, "rb");
    WANT(file != NULL && fseek(file, 0, SEEK_END) == 0);
    long size = ftell(file);
    WANT(size >= 0 && fseek(file, 0, SEEK_SET) == 0);
    uint8_t *bytes = (uint8_t *)malloc((size_t)size + 1);
    WANT(bytes != NULL);
    *len = fread(bytes, 1, (size_t)size, file);
    WANT(*len == (size_t)size);
    fclose(file);
    return bytes;
}

static void print_document(const opened *store, uint32_t doc_id) {
    zevk_place place;
    uint32_t refusal = zevk_locate(store->file, store->len, store->table, store->count, doc_id, &place);
    if (refusal != ZEVK_DONE) {
        printf("error %" PRIu32 "\n", refusal);
        return;
    }
    printf("%s", place.len == 0 ? "-" : "");
    for (size_t at = 0; at < place.len; at++) {
        printf("%02x", store->file[place.start + at]);
    }
    printf("\n");
}

static void print_file(const char *path) {
    size_t len = 0;
    uint8_t *file = bytes_of(path, &len);
    opened store = opened_file(file, len);
    WANT(compared(file, len) == store.error);
    if (store.error != ZEVK_DONE) {
        printf("error %" PRIu32 "\n", store.error);
    } else {
        printf("docs %" PRIu32 "\n", store.num_docs);
        for (uint32_t doc_id = 0; doc_id < store.num_docs && doc_id < FIRST; doc_id++) {
            print_document(&store, doc_id);
        }
        print_document(&store, store.num_docs - 1);
        print_document(&store, store.num_docs);
    }
    free(store.table);
    free(file);
}

int main(int argc, char **argv) {
    for (int at = 1; at < argc; at++) {
        print_file(argv[at]);
    }
    return 0;
}
