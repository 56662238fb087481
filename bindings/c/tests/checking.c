/* The check of a whole file: of a store, of each of its beginnings, and with each of its bits changed. It is DONE for
 * what zevk_open opens and whose documents are all found; of anything else it says where the fault is.
 *
 * usage: checking HEX
 */
#include "stores.h"

/* What zevk_open returns for some bytes, and the first document that is not found by zevk_get; DOCUMENTS if all are. */
typedef struct opened {
    uint32_t error;
    uint32_t damaged;
} opened;

static opened opened_file(const uint8_t *file, size_t len) {
    zevk_block table[BLOCKS];
    zevk_place place;
    size_t count = 0;
    uint32_t num_docs = 0;
    opened store = {zevk_open(file, len, table, BLOCKS, &count, &num_docs), 0};
    while (store.error == ZEVK_DONE && store.damaged < num_docs
           && zevk_get(file, len, store.damaged, &place) == ZEVK_DONE) {
        store.damaged++;
    }
    if (store.error == ZEVK_DONE && store.damaged == num_docs) {
        store.damaged = DOCUMENTS;
    }
    return store;
}

/* The place of a fault lies between the data and the footer, and its layer is one of few or one of the two words. */
static void is_place(const zevk_fault *fault, size_t len) {
    WANT(fault->byte <= len - 28 && fault->doc_id == 0);
    WANT(fault->layer < 64 || fault->layer == ZEVK_LAYER_LIST || fault->layer == ZEVK_LAYER_COVER);
}

static uint32_t checked(const uint8_t *file, size_t len) {
    opened store = opened_file(file, len);
    zevk_fault fault = {77, 78, 79};
    uint32_t error = zevk_check(file, len, &fault);
    if (store.error == ZEVK_DONE && store.damaged < DOCUMENTS) {
        WANT(error == ZEVK_DAMAGED_DOCUMENT);
        WANT(fault.byte == 0 && fault.layer == 0 && fault.doc_id == store.damaged);
    } else if (store.error == ZEVK_BAD_INDEX) {
        WANT(error == ZEVK_BAD_INDEX);
        is_place(&fault, len);
    } else {
        WANT(error == store.error && fault.byte == 77 && fault.layer == 78 && fault.doc_id == 79);
    }
    return error;
}

static void beginnings(const uint8_t *file, size_t len) {
    for (size_t cut = 0; cut <= len; cut++) {
        uint8_t *bytes = (uint8_t *)tight(file, cut);
        WANT((checked(bytes, cut) == ZEVK_DONE) == (cut == len));
        free(bytes);
    }
}

/* Each bit changed. The counts say that each kind of fault occurs. */
static void changed_bits(const uint8_t *file, size_t len) {
    uint8_t *bytes = (uint8_t *)tight(file, len);
    size_t counts[64] = {0};
    for (size_t bit = 0; bit < 8 * len; bit++) {
        bytes[bit / 8] ^= (uint8_t)(1u << (bit % 8));
        uint32_t error = checked(bytes, len);
        WANT(error < 64);
        counts[error]++;
        bytes[bit / 8] ^= (uint8_t)(1u << (bit % 8));
    }
    WANT(counts[ZEVK_DONE] > 0 && counts[ZEVK_BAD_INDEX] > 0 && counts[ZEVK_DAMAGED_DOCUMENT] > 0);
    free(bytes);
}

/* Where the index begins: the footer says it in its fifth byte and those after it. */
static size_t index_start(const uint8_t *file, size_t len) {
    return (size_t)file[len - 24] | (size_t)file[len - 23] << 8;
}

/* Two faults whose places are known: no list of layers, and a last block that ends a byte before or after the data. */
static void known_places(const uint8_t *file, size_t len) {
    uint8_t *bytes = (uint8_t *)tight(file, len);
    size_t start = index_start(file, len);
    zevk_fault fault = {77, 78, 79};
    bytes[start] = 0xff;
    WANT(zevk_check(bytes, len, &fault) == ZEVK_BAD_INDEX);
    WANT(fault.byte == start && fault.layer == ZEVK_LAYER_LIST);
    bytes[start] = file[start];
    bytes[len - 29] ^= 1;
    WANT(zevk_check(bytes, len, &fault) == ZEVK_BAD_INDEX);
    WANT(fault.byte == start && fault.layer == ZEVK_LAYER_COVER);
    free(bytes);
}

int main(int argc, char **argv) {
    size_t len = 0;
    uint8_t *file = loaded(argc, argv, &len);
    beginnings(file, len);
    changed_bits(file, len);
    known_places(file, len);
    free(file);
    return 0;
}
