/* Each allocation of a closing is refused in turn: it answers that there is no memory, changes nothing, and leaves no
 * block allocated. Nothing else allocates.
 *
 * usage: memory HEX. It is linked with --wrap for malloc, realloc and free.
 */
#include "stores.h"

#ifdef __cplusplus
extern "C" {
#endif
void *__real_malloc(size_t size);
void *__real_realloc(void *block, size_t size);
void __real_free(void *block);
void *__wrap_malloc(size_t size);
void *__wrap_realloc(void *block, size_t size);
void __wrap_free(void *block);
#ifdef __cplusplus
}
#endif

/* How many allocations are granted before one is refused, and how many blocks there are. */
static long granted = -1;
static long blocks = 0;

static int refused(void) {
    return granted == 0 || (granted > 0 && granted-- == 0);
}

void *__wrap_malloc(size_t size) {
    void *block = refused() ? NULL : __real_malloc(size);
    blocks += block != NULL;
    return block;
}

void *__wrap_realloc(void *block, size_t size) {
    void *moved = refused() ? NULL : __real_realloc(block, size);
    blocks += moved != NULL && block == NULL;
    return moved;
}

void __wrap_free(void *block) {
    blocks -= block != NULL;
    __real_free(block);
}

/* Opens, checks and reads a file without an allocation. */
static void reads_without_memory(const uint8_t *file, size_t len) {
    zevk_block table[BLOCKS];
    zevk_head head;
    zevk_fault fault;
    zevk_place place, run[DOCUMENTS];
    size_t count = 77, found = 0;
    uint32_t num_docs = 78;
    granted = 0;
    WANT(zevk_check(file, len, &fault) == ZEVK_DONE);
    WANT(zevk_open(file, len, table, BLOCKS, &count, &num_docs) == ZEVK_DONE && num_docs == DOCUMENTS);
    WANT(zevk_locate(file, len, table, count, 3, &place) == ZEVK_DONE && is_document(file, len, place, 3));
    WANT(zevk_locate_run(file, len, table, count, 0, run, DOCUMENTS, &found) == ZEVK_DONE);
    WANT(zevk_get(file, len, 3, &place) == ZEVK_DONE && is_document(file, len, place, 3));
    WANT(zevk_get_run(file, len, 0, run, DOCUMENTS, &found) == ZEVK_DONE && found == DOCUMENTS);
    WANT(zevk_num_docs(file, len, &num_docs) == ZEVK_DONE && num_docs == DOCUMENTS);
    WANT(zevk_outline(file, len, table, 1, &head) == ZEVK_DONE);
    WANT(zevk_get_by(file, len, table, head.rows, &head, 3, &place) == ZEVK_DONE && is_document(file, len, place, 3));
    granted = -1;
}

/* Stacks a file without an allocation, and closes with this many. */
static uint32_t close_with(const uint8_t *file, size_t len, long allocations) {
    zevk_block table[BLOCKS + 1];
    uint32_t starts[4];
    uint8_t end[256];
    zevk_writer writer;
    size_t count = 77, data_len = 78, end_len = 79;
    long before = blocks;
    granted = 0;
    zevk_writer_begin(&writer, 0);
    WANT(zevk_writer_put(&writer, starts, 4, table, BLOCKS + 1, 5, &count) == ZEVK_DONE && count == 2);
    WANT(zevk_writer_end_block(&writer, starts, 4, table, BLOCKS + 1, &count) == ZEVK_DONE && count == 0);
    WANT(zevk_writer_stack(&writer, table, BLOCKS + 1, file, len, &count, &data_len) == ZEVK_DONE && count == BLOCKS);
    granted = allocations;
    uint32_t answer = zevk_writer_close(&writer, table, BLOCKS + 1, 8, end, sizeof end, &end_len);
    granted = -1;
    WANT(blocks == before);
    WANT(answer == ZEVK_DONE || end_len == 79);
    return answer;
}

int main(int argc, char **argv) {
    size_t len = 0;
    long closing = 0;
    uint8_t *file = loaded(argc, argv, &len);
    reads_without_memory(file, len);
    while (close_with(file, len, closing) != ZEVK_DONE) {
        WANT(close_with(file, len, closing) == ZEVK_NO_MEMORY);
        closing++;
    }
    WANT(closing > 0);
    printf("%ld allocations of a closing\n", closing);
    free(file);
    return 0;
}
