/* The calls of the library that take arrays. An array of length 0 may be NULL in C, while in the proved code no pointer
 * is NULL. So each call replaces the address of an array of length 0, and makes the proved call, to which build.sh
 * gives the name that is declared here.
 */
#include <stddef.h>

#include "zevkhadun.h"

size_t zevk_proved_refusal_text(uint32_t number, uint8_t *text, size_t text_len);
uint32_t zevk_proved_get(const uint8_t *file, size_t file_len, uint32_t doc_id, zevk_place *place);
uint32_t zevk_proved_get_run(const uint8_t *file, size_t file_len, uint32_t first, zevk_place *places,
                             size_t places_len, size_t *count);
uint32_t zevk_proved_num_docs(const uint8_t *file, size_t file_len, uint32_t *num_docs);
uint32_t zevk_proved_check(const uint8_t *file, size_t file_len, zevk_fault *fault);
uint32_t zevk_proved_block_of(const uint8_t *tail, size_t tail_len, size_t file_len, uint32_t doc_id,
                              zevk_block_place *block, size_t *wanted);
uint32_t zevk_proved_get_in(const uint8_t *block, size_t block_len, const zevk_block_place *at, uint32_t doc_id,
                            zevk_place *place);
uint32_t zevk_proved_open(const uint8_t *file, size_t file_len, zevk_block *table, size_t table_len, size_t *count,
                          uint32_t *num_docs);
uint32_t zevk_proved_locate(const uint8_t *file, size_t file_len, const zevk_block *table, size_t table_len,
                            uint32_t doc_id, zevk_place *place);
uint32_t zevk_proved_locate_run(const uint8_t *file, size_t file_len, const zevk_block *table, size_t table_len,
                                uint32_t first, zevk_place *places, size_t places_len, size_t *count);
uint32_t zevk_proved_outline(const uint8_t *file, size_t file_len, zevk_block *rows, size_t rows_len, zevk_head *head);
uint32_t zevk_proved_get_by(const uint8_t *file, size_t file_len, const zevk_block *rows, size_t rows_len,
                            const zevk_head *head, uint32_t doc_id, zevk_place *place);
uint32_t zevk_proved_writer_put(zevk_writer *writer, uint32_t *starts, size_t starts_len, zevk_block *table,
                                size_t table_len, size_t len, size_t *count);
uint32_t zevk_proved_writer_end_block(zevk_writer *writer, uint32_t *starts, size_t starts_len, zevk_block *table,
                                      size_t table_len, size_t *count);
uint32_t zevk_proved_writer_stack(zevk_writer *writer, zevk_block *table, size_t table_len, const uint8_t *file,
                                  size_t file_len, size_t *count, size_t *len);
uint32_t zevk_proved_writer_close(const zevk_writer *writer, const zevk_block *table, size_t table_len, uint8_t period,
                                  uint8_t *end, size_t end_len, size_t *len);

/* Where arrays of length 0 begin, aligned for any element. No byte of it is read or written. */
static max_align_t none;

/* The address of an array that is given to a proved call. */
static inline void *address(const void *array, size_t len) {
    return len == 0 ? &none : (void *)array;
}

size_t zevk_refusal_text(uint32_t number, uint8_t *text, size_t text_len) {
    return zevk_proved_refusal_text(number, address(text, text_len), text_len);
}

uint32_t zevk_get(const uint8_t *file, size_t file_len, uint32_t doc_id, zevk_place *place) {
    return zevk_proved_get(address(file, file_len), file_len, doc_id, place);
}

uint32_t zevk_get_run(const uint8_t *file, size_t file_len, uint32_t first, zevk_place *places, size_t places_len,
                      size_t *count) {
    return zevk_proved_get_run(address(file, file_len), file_len, first, address(places, places_len), places_len,
                               count);
}

uint32_t zevk_num_docs(const uint8_t *file, size_t file_len, uint32_t *num_docs) {
    return zevk_proved_num_docs(address(file, file_len), file_len, num_docs);
}

uint32_t zevk_check(const uint8_t *file, size_t file_len, zevk_fault *fault) {
    return zevk_proved_check(address(file, file_len), file_len, fault);
}

uint32_t zevk_block_of(const uint8_t *tail, size_t tail_len, size_t file_len, uint32_t doc_id, zevk_block_place *block,
                       size_t *wanted) {
    return zevk_proved_block_of(address(tail, tail_len), tail_len, file_len, doc_id, block, wanted);
}

uint32_t zevk_get_in(const uint8_t *block, size_t block_len, const zevk_block_place *at, uint32_t doc_id,
                     zevk_place *place) {
    return zevk_proved_get_in(address(block, block_len), block_len, at, doc_id, place);
}

uint32_t zevk_open(const uint8_t *file, size_t file_len, zevk_block *table, size_t table_len, size_t *count,
                   uint32_t *num_docs) {
    return zevk_proved_open(address(file, file_len), file_len, address(table, table_len), table_len, count, num_docs);
}

uint32_t zevk_locate(const uint8_t *file, size_t file_len, const zevk_block *table, size_t table_len, uint32_t doc_id,
                     zevk_place *place) {
    return zevk_proved_locate(address(file, file_len), file_len, address(table, table_len), table_len, doc_id, place);
}

uint32_t zevk_locate_run(const uint8_t *file, size_t file_len, const zevk_block *table, size_t table_len,
                         uint32_t first, zevk_place *places, size_t places_len, size_t *count) {
    return zevk_proved_locate_run(address(file, file_len), file_len, address(table, table_len), table_len, first,
                                  address(places, places_len), places_len, count);
}

uint32_t zevk_outline(const uint8_t *file, size_t file_len, zevk_block *rows, size_t rows_len, zevk_head *head) {
    return zevk_proved_outline(address(file, file_len), file_len, address(rows, rows_len), rows_len, head);
}

uint32_t zevk_get_by(const uint8_t *file, size_t file_len, const zevk_block *rows, size_t rows_len,
                     const zevk_head *head, uint32_t doc_id, zevk_place *place) {
    return zevk_proved_get_by(address(file, file_len), file_len, address(rows, rows_len), rows_len, head, doc_id,
                              place);
}

uint32_t zevk_writer_put(zevk_writer *writer, uint32_t *starts, size_t starts_len, zevk_block *table, size_t table_len,
                         size_t len, size_t *count) {
    return zevk_proved_writer_put(writer, address(starts, starts_len), starts_len, address(table, table_len),
                                  table_len, len, count);
}

uint32_t zevk_writer_end_block(zevk_writer *writer, uint32_t *starts, size_t starts_len, zevk_block *table,
                               size_t table_len, size_t *count) {
    return zevk_proved_writer_end_block(writer, address(starts, starts_len), starts_len, address(table, table_len),
                                        table_len, count);
}

uint32_t zevk_writer_stack(zevk_writer *writer, zevk_block *table, size_t table_len, const uint8_t *file,
                           size_t file_len, size_t *count, size_t *len) {
    return zevk_proved_writer_stack(writer, address(table, table_len), table_len, address(file, file_len), file_len,
                                    count, len);
}

uint32_t zevk_writer_close(const zevk_writer *writer, const zevk_block *table, size_t table_len, uint8_t period,
                           uint8_t *end, size_t end_len, size_t *len) {
    return zevk_proved_writer_close(writer, address(table, table_len), table_len, period, address(end, end_len),
                                    end_len, len);
}
