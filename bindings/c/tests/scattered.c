/* Gets documents of a store that is opened for gets that are far apart, and prints where each lies: the number of the
 * page of its first byte in the process, and that of its entry in the table of its block.
 *
 * usage: scattered STORE ID...
 */
#include <inttypes.h>
#include <unistd.h>

#include "stores.h"
#include "zevkhadun_file.h"

/* Where the entry of a document is in the file: at the end of a block are four bytes for each document, and their
 * count. */
static size_t entry_of(const zevk_facts *facts, uint32_t doc_id) {
    zevk_block_place block;
    size_t wanted;
    WANT(zevk_block_of(facts->bytes, facts->len, facts->len, doc_id, &block, &wanted) == ZEVK_DONE);
    return block.start + block.len - 4 * ((size_t)(block.end_doc - doc_id) + 1);
}

int main(int argc, char **argv) {
    const uintptr_t page = (uintptr_t)sysconf(_SC_PAGESIZE);
    zevk_file *file = NULL;
    zevk_facts facts;
    zevk_document document;
    WANT(argc > 2 && zevk_file_open(argv[1], ZEVK_FILE_SCATTERED, &file) == 0);
    zevk_file_facts(file, &facts);
    for (int at = 2; at < argc; at++) {
        uint32_t doc_id = (uint32_t)strtoul(argv[at], NULL, 10);
        WANT(zevk_file_get(file, doc_id, &document) == 0);
        uintptr_t entry = (uintptr_t)(facts.bytes + entry_of(&facts, doc_id));
        printf("%" PRIuPTR " %" PRIuPTR "\n", entry / page, (uintptr_t)document.bytes / page);
    }
    zevk_file_close(file);
    return 0;
}
