/* Stands before the proved calls, and ends the program if an array that reaches them is NULL or isn't aligned.
 *
 * It is linked with --wrap for each of them.
 */
#include "stores.h"

#define BYTES(array) WANT((array) != NULL)
#define STARTS(array) WANT((array) != NULL && (uintptr_t)(array) % _Alignof(uint32_t) == 0)
#define ROWS(array) WANT((array) != NULL && (uintptr_t)(array) % _Alignof(zevk_block) == 0)
#define PLACES(array) WANT((array) != NULL && (uintptr_t)(array) % _Alignof(zevk_place) == 0)

#define CHECKED(result, name, parameters, arguments, checks) \
    result __real_zevk_proved_##name parameters;             \
    result __wrap_zevk_proved_##name parameters;             \
    result __wrap_zevk_proved_##name parameters {            \
        checks;                                              \
        return __real_zevk_proved_##name arguments;          \
    }

CHECKED(size_t, refusal_text, (uint32_t number, uint8_t *text, size_t text_len), (number, text, text_len), BYTES(text))

CHECKED(uint32_t, get, (const uint8_t *file, size_t file_len, uint32_t doc_id, zevk_place *place),
        (file, file_len, doc_id, place), BYTES(file))

CHECKED(uint32_t, get_run,
        (const uint8_t *file, size_t file_len, uint32_t first, zevk_place *places, size_t places_len, size_t *count),
        (file, file_len, first, places, places_len, count), BYTES(file); PLACES(places))

CHECKED(uint32_t, num_docs, (const uint8_t *file, size_t file_len, uint32_t *num_docs), (file, file_len, num_docs),
        BYTES(file))

CHECKED(uint32_t, check, (const uint8_t *file, size_t file_len, zevk_fault *fault), (file, file_len, fault),
        BYTES(file))

CHECKED(uint32_t, block_of,
        (const uint8_t *tail, size_t tail_len, size_t file_len, uint32_t doc_id, zevk_block_place *block,
         size_t *wanted),
        (tail, tail_len, file_len, doc_id, block, wanted), BYTES(tail))

CHECKED(uint32_t, get_in,
        (const uint8_t *block, size_t block_len, const zevk_block_place *at, uint32_t doc_id, zevk_place *place),
        (block, block_len, at, doc_id, place), BYTES(block))

CHECKED(uint32_t, open,
        (const uint8_t *file, size_t file_len, zevk_block *table, size_t table_len, size_t *count, uint32_t *num_docs),
        (file, file_len, table, table_len, count, num_docs), BYTES(file); ROWS(table))

CHECKED(uint32_t, locate,
        (const uint8_t *file, size_t file_len, const zevk_block *table, size_t table_len, uint32_t doc_id,
         zevk_place *place),
        (file, file_len, table, table_len, doc_id, place), BYTES(file); ROWS(table))

CHECKED(uint32_t, locate_run,
        (const uint8_t *file, size_t file_len, const zevk_block *table, size_t table_len, uint32_t first,
         zevk_place *places, size_t places_len, size_t *count),
        (file, file_len, table, table_len, first, places, places_len, count), BYTES(file); ROWS(table); PLACES(places))

CHECKED(uint32_t, outline,
        (const uint8_t *file, size_t file_len, zevk_block *rows, size_t rows_len, zevk_head *head),
        (file, file_len, rows, rows_len, head), BYTES(file); ROWS(rows))

CHECKED(uint32_t, get_by,
        (const uint8_t *file, size_t file_len, const zevk_block *rows, size_t rows_len, const zevk_head *head,
         uint32_t doc_id, zevk_place *place),
        (file, file_len, rows, rows_len, head, doc_id, place), BYTES(file); ROWS(rows))

CHECKED(uint32_t, writer_put,
        (zevk_writer *writer, uint32_t *starts, size_t starts_len, zevk_block *table, size_t table_len, size_t len,
         size_t *count),
        (writer, starts, starts_len, table, table_len, len, count), STARTS(starts); ROWS(table))

CHECKED(uint32_t, writer_end_block,
        (zevk_writer *writer, uint32_t *starts, size_t starts_len, zevk_block *table, size_t table_len, size_t *count),
        (writer, starts, starts_len, table, table_len, count), STARTS(starts); ROWS(table))

CHECKED(uint32_t, writer_stack,
        (zevk_writer *writer, zevk_block *table, size_t table_len, const uint8_t *file, size_t file_len, size_t *count,
         size_t *len),
        (writer, table, table_len, file, file_len, count, len), ROWS(table); BYTES(file))

CHECKED(uint32_t, writer_close,
        (const zevk_writer *writer, const zevk_block *table, size_t table_len, uint8_t period, uint8_t *end,
         size_t end_len, size_t *len),
        (writer, table, table_len, period, end, end_len, len), ROWS(table); BYTES(end))
