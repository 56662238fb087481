/* Stores by path: the errors of each call, and what it leaves.
 *
 * usage: path_errors FOLDER, as the working folder
 */
#include <errno.h>
#include <fcntl.h>
#include <sys/stat.h>
#include <sys/sysmacros.h>
#include <unistd.h>

#include "stores.h"
#include "zevkhadun_file.h"

/* A store of one block that claims 2^32 - 1 documents, all of them damaged. */
static const uint8_t damaged[40] = {
    'x', 0x81, 0x89, 0x81, 0x80, 0x80, 0x7f, 0x7f, 0x7f, 0x7f, 0x8f, 0x81, 3, 0, 0, 0, 1, 0, 0, 0, 0, 0, 0, 0, 0, 8,
};
/* A store of the documents "abc" and "de". */
static const uint8_t two[52] = {
    'a', 'b', 'c', 'd', 'e', 0, 0, 0, 0, 3, 0, 0, 0, 2, 0, 0, 0, 0x81, 0x85, 0x81, 0x80, 0x80, 0x82, 0x91, 3, 0, 0, 0,
    0x11, 0, 0, 0, 0, 0, 0, 0, 0, 8,
};

static void write_file(const char *path, const uint8_t *bytes, size_t len) {
    FILE *file = fopen(path, "wb");
    WANT(file != NULL && fwrite(bytes, 1, len, file) == len && fclose(file) == 0);
}

static int is_missing(const char *path) {
    struct stat found;
    return stat(path, &found) != 0 && errno == ENOENT;
}

/* The file of this name is the store of two documents, and there is no second file. */
static int is_kept(const char *path, const char *part) {
    zevk_file *file = NULL;
    zevk_document document;
    WANT(is_missing(part) && zevk_file_open(path, 0, &file) == 0);
    int is_two = zevk_file_num_docs(file) == 2 && zevk_file_get(file, 1, &document) == 0 && document.len == 2;
    zevk_file_close(file);
    return is_two;
}

/* The error of an opening with both flags. Nothing is set. */
static int opening(const char *path, unsigned flags) {
    zevk_file *file = NULL;
    errno = 0;
    int error = zevk_file_open(path, flags, &file);
    WANT(error != 0 && file == NULL && (error > 0 || errno == -error));
    return error;
}

/* An opening gives this error, or a file with this number of documents. */
static void is_opened(unsigned flags, uint32_t error, uint32_t num_docs) {
    zevk_file *file = NULL;
    WANT(zevk_file_open("changed", flags, &file) == (int)error && (file == NULL) == (error != ZEVK_DONE));
    WANT(file == NULL || zevk_file_num_docs(file) == num_docs);
    zevk_file_close(file);
}

/* An opening of bytes gives the error of zevk_open. Without the whole check it gives that of zevk_num_docs. */
static void opens_as_in_memory(const uint8_t *bytes, size_t len) {
    uint32_t num_docs = 77;
    size_t count = 0;
    zevk_block rows[2];
    uint8_t *copy = (uint8_t *)tight(bytes, len);
    write_file("changed", bytes, len);
    uint32_t error = zevk_open(copy, len, rows, 2, &count, &num_docs);
    is_opened(ZEVK_FILE_CHECKED, error, num_docs);
    is_opened(ZEVK_FILE_CHECKED | ZEVK_FILE_SCATTERED, error, num_docs);
    error = zevk_num_docs(copy, len, &num_docs);
    is_opened(0, error, num_docs);
    is_opened(ZEVK_FILE_SCATTERED, error, num_docs);
    free(copy);
}

static void files_are_refused(void) {
    uint8_t bytes[52];
    WANT(opening("none", 0) == -ENOENT && opening("none", ZEVK_FILE_CHECKED) == -ENOENT);
    WANT(opening(".", 0) == ZEVK_NOT_PLAIN_FILE && opening("/dev/null", 0) == ZEVK_NOT_PLAIN_FILE);
    WANT(mkfifo("pipe", 0600) == 0 && opening("pipe", 0) == ZEVK_NOT_PLAIN_FILE);
    write_file("short", two, 27);
    WANT(opening("short", 0) == ZEVK_SHORT_FILE && opening("short", ZEVK_FILE_CHECKED) == ZEVK_SHORT_FILE);
    for (size_t len = 0; len <= sizeof two; len++) {
        opens_as_in_memory(two, len);
    }
    for (size_t at = 0; at < sizeof two; at++) {
        memcpy(bytes, two, sizeof bytes);
        bytes[at] ^= 0x40;
        opens_as_in_memory(bytes, sizeof bytes);
    }
}

/* Flags that the library doesn't know are refused, also beside one that it knows, and for a name that has no file. */
static void unknown_flags_are_refused(void) {
    write_file("flags", two, sizeof two);
    const unsigned known = ZEVK_FILE_CHECKED | ZEVK_FILE_SCATTERED;
    for (unsigned bit = 0; bit < 32; bit++) {
        if ((1u << bit & known) == 0) {
            WANT(opening("flags", 1u << bit) == -EINVAL && opening("none", 1u << bit) == -EINVAL);
            WANT(opening("flags", known | 1u << bit) == -EINVAL);
        }
    }
    for (unsigned bit = 0; bit < 32; bit++) {
        zevk_file_writer *writer = NULL;
        int is_known = 1u << bit == ZEVK_FILE_REPLACE;
        unsigned flags = ZEVK_FILE_REPLACE | (is_known ? ZEVK_FILE_CHECKED : 1u << bit);
        errno = 0;
        WANT(zevk_file_create("flags", flags, 16384, 8, &writer) == -EINVAL && errno == EINVAL && writer == NULL);
        WANT(is_known || zevk_file_create("none", 1u << bit, 16384, 1, &writer) == -EINVAL);
        WANT(writer == NULL && is_kept("flags", "flags.part") && is_missing("none") && is_missing("none.part"));
    }
}

/* Damaged documents are passed one by one, up to the last one that there can be. */
static void damage_is_passed(unsigned flags) {
    zevk_file *file = NULL;
    zevk_cursor cursor;
    zevk_document document = {NULL, 77};
    write_file("damaged", damaged, sizeof damaged);
    WANT(zevk_file_open("damaged", flags, &file) == 0 && zevk_file_num_docs(file) == UINT32_MAX);
    WANT(zevk_file_get(file, 5, &document) == ZEVK_DAMAGED_DOCUMENT && document.len == 77);
    zevk_cursor_begin(&cursor, file, UINT32_MAX - 3);
    for (uint32_t id = UINT32_MAX - 3; id < UINT32_MAX; id++) {
        WANT(zevk_cursor_next(&cursor, &document) == ZEVK_DAMAGED_DOCUMENT && cursor.doc_id == id);
    }
    WANT(zevk_cursor_next(&cursor, &document) == ZEVK_NO_DOCUMENT && document.len == 77);
    WANT(zevk_cursor_next(&cursor, &document) == ZEVK_NO_DOCUMENT && cursor.doc_id == UINT32_MAX);
    zevk_file_close(file);
}

/* The errors of beginning a writer in three ways. Nothing is set, and there is no second file. */
static int beginning(const char *path) {
    zevk_file_writer *writer = NULL;
    int error = zevk_file_create(path, ZEVK_FILE_REPLACE, 16384, 8, &writer);
    WANT(error != 0 && writer == NULL && (error > 0 || errno == -error));
    int without = zevk_file_create(path, 0, 16384, 8, &writer);
    WANT((without == error || without == -EEXIST) && writer == NULL);
    WANT(zevk_file_append(path, 16384, 8, &writer) == error && writer == NULL);
    return error;
}

/* Second files that are no plain files are refused without waiting, with and without somebody at the pipe's other end,
 * and are left as they are. */
static void other_second_files_are_refused(void) {
    struct stat found;
    write_file("store", two, sizeof two);
    WANT(mkfifo("store.part", 0600) == 0 && beginning("store") == ZEVK_NOT_PLAIN_FILE);
    int reader = open("store.part", O_RDONLY | O_NONBLOCK);
    WANT(reader >= 0 && beginning("store") == ZEVK_NOT_PLAIN_FILE && close(reader) == 0);
    WANT(lstat("store.part", &found) == 0 && S_ISFIFO(found.st_mode) && unlink("store.part") == 0);
    WANT(mkdir("store.part", 0700) == 0 && beginning("store") == ZEVK_NOT_PLAIN_FILE && rmdir("store.part") == 0);
    /* Only root makes a device. */
    if (mknod("store.part", S_IFCHR | 0600, makedev(1, 3)) == 0) {
        WANT(beginning("store") == ZEVK_NOT_PLAIN_FILE && unlink("store.part") == 0);
    }
    WANT(is_kept("store", "store.part"));
}

/* The error of a writer that doesn't replace a file. Nothing is set, and there is no second file. */
static int creating(const char *path) {
    zevk_file_writer *writer = NULL;
    errno = 0;
    int error = zevk_file_create(path, 0, 16384, 8, &writer);
    WANT(error != 0 && writer == NULL && (error > 0 || errno == -error));
    return error;
}

/* A file is replaced only if the caller asks: at the beginning, and where it came meanwhile. */
static void files_are_not_replaced_unasked(void) {
    zevk_file_writer *writer = NULL;
    struct stat before, after;
    write_file("kept", two, sizeof two);
    WANT(stat("kept", &before) == 0 && symlink("kept", "to_kept") == 0 && link("kept", "again") == 0);
    WANT(creating("kept") == -EEXIST && creating("to_kept") == -EEXIST && creating("../folder/again") == -EEXIST);
    WANT(creating(".") == ZEVK_NOT_PLAIN_FILE && creating("/dev/null") == ZEVK_NOT_PLAIN_FILE);
    WANT(stat("kept", &after) == 0 && is_kept("kept", "kept.part") && before.st_ino == after.st_ino);
    for (int is_link = 0; is_link < 2; is_link++) {
        WANT(zevk_file_create("came", 0, 16384, 8, &writer) == 0 && zevk_file_put(writer, "new", 3, NULL) == 0);
        WANT((is_link ? symlink("kept", "came") : link("kept", "came")) == 0);
        errno = 0;
        WANT(zevk_file_publish(writer) == -EEXIST && errno == EEXIST);
        WANT(is_kept("came", "came.part") && unlink("came") == 0 && is_kept("kept", "kept.part"));
    }
    WANT(zevk_file_create("came", ZEVK_FILE_REPLACE, 16384, 8, &writer) == 0 && link("kept", "came") == 0);
    WANT(zevk_file_put(writer, "abc", 3, NULL) == 0 && zevk_file_put(writer, "de", 2, NULL) == 0);
    WANT(zevk_file_publish(writer) == 0 && is_kept("came", "came.part") && stat("came", &after) == 0);
    WANT(after.st_ino != before.st_ino && strcmp(zevk_strerror(-EEXIST), "File exists") == 0);
}

static void writers_are_refused(void) {
    zevk_file_writer *writer = NULL, *second = NULL;
    write_file("store", two, sizeof two);
    WANT(zevk_file_create("store", ZEVK_FILE_REPLACE, 0, 1, &writer) == ZEVK_BAD_PERIOD);
    WANT(is_kept("store", "store.part"));
    WANT(zevk_file_create("store", ZEVK_FILE_REPLACE, 0, 65, &writer) == ZEVK_BAD_PERIOD);
    WANT(zevk_file_create("store", ZEVK_FILE_REPLACE, 0, 256 + 8, &writer) == ZEVK_BAD_PERIOD);
    WANT(zevk_file_append("store", 0, 1, &writer) == ZEVK_BAD_PERIOD && is_kept("store", "store.part"));
    WANT(zevk_file_append("store", 0, 256 + 8, &writer) == ZEVK_BAD_PERIOD && writer == NULL);
    WANT(beginning("none/store") == -ENOENT && beginning("") == ZEVK_NOT_PLAIN_FILE);
    WANT(beginning(".") == ZEVK_NOT_PLAIN_FILE && beginning("./") == ZEVK_NOT_PLAIN_FILE);
    WANT(beginning("/dev/null") == ZEVK_NOT_PLAIN_FILE && beginning("store/x") == -ENOTDIR);
    WANT(symlink("nowhere", "link") == 0 && beginning("link") == -ENOENT && is_missing("nowhere.part"));
    WANT(symlink("nowhere", "store.part") == 0 && beginning("store") == -ELOOP && is_missing("nowhere"));
    WANT(unlink("store.part") == 0);
    WANT(zevk_file_append("nothing", 16384, 0, &writer) == -ENOENT && is_missing("nothing.part"));
    write_file("text", (const uint8_t *)"words and words and words and words", 35);
    WANT(zevk_file_append("text", 16384, 0, &writer) == ZEVK_BAD_VERSION && is_missing("text.part"));
    WANT(zevk_file_create("store", ZEVK_FILE_REPLACE, 16384, 8, &writer) == 0);
    WANT(beginning("store") == ZEVK_BUSY && beginning("../folder/store") == ZEVK_BUSY);
    WANT(zevk_file_create("other", 0, 16384, 8, &second) == 0);
    zevk_file_discard(second);
    errno = 77;
    zevk_file_discard(writer);
    zevk_file_discard(NULL);
    zevk_file_close(NULL);
    WANT(errno == 77 && is_kept("store", "store.part") && is_missing("other") && is_missing("other.part"));
}

/* A store of version 1 is read, and neither stacked nor appended to; the writer goes on. */
static void old_versions_are_refused(void) {
    uint8_t bytes[52];
    zevk_file *file = NULL;
    zevk_file_writer *writer = NULL;
    zevk_facts facts;
    memcpy(bytes, two, sizeof bytes);
    bytes[24] = 1;
    bytes[37] = 99;
    write_file("old", bytes, sizeof bytes);
    WANT(zevk_file_append("old", 16384, 0, &writer) == ZEVK_OLD_VERSION && is_missing("old.part"));
    WANT(zevk_file_open("old", 0, &file) == 0);
    zevk_file_facts(file, &facts);
    WANT(facts.version == 1 && facts.period == 8 && facts.num_docs == 2 && facts.data_len == 17);
    WANT(zevk_file_create("store", ZEVK_FILE_REPLACE, 16384, 8, &writer) == 0);
    WANT(zevk_file_stack(writer, file) == ZEVK_OLD_VERSION && zevk_file_writer_num_docs(writer) == 0);
    WANT(zevk_file_put(writer, "abc", 3, NULL) == 0 && zevk_file_put(writer, "", (size_t)1 << 32, NULL) != 0);
    WANT(zevk_file_put(writer, "de", 2, NULL) == 0 && zevk_file_publish(writer) == 0);
    WANT(is_kept("store", "store.part"));
    zevk_file_close(file);
}

/* A writer and its folder stay together where the program changes its working folder. */
static void folders_are_kept(void) {
    zevk_file_writer *writer = NULL;
    WANT(mkdir("below", 0700) == 0 && zevk_file_create("store", ZEVK_FILE_REPLACE, 16384, 8, &writer) == 0);
    WANT(chdir("below") == 0 && zevk_file_put(writer, "abc", 3, NULL) == 0);
    WANT(zevk_file_put(writer, "de", 2, NULL) == 0 && zevk_file_publish(writer) == 0);
    WANT(is_missing("store") && chdir("..") == 0 && is_kept("store", "store.part"));
}

static int is_open(int descriptor) {
    return fcntl(descriptor, F_GETFD) >= 0;
}

/* Files are opened and written while the standard input and outputs are closed, and take none of their descriptors. A
 * failure is in the status alone. */
static void standard_descriptors_stay_free(void) {
    zevk_file *file = NULL;
    zevk_file_writer *writers[2] = {NULL, NULL};
    int kept[3];
    for (int number = 0; number < 3; number++) {
        kept[number] = fcntl(number, F_DUPFD_CLOEXEC, 3);
        close(number);
    }
    write_file("store", two, sizeof two);
    WANT(zevk_file_append("store", 16384, 0, &writers[0]) == 0);
    WANT(zevk_file_create("new", 0, 16384, 8, &writers[1]) == 0);
    WANT(zevk_file_open("store", 0, &file) == 0 && zevk_file_stack(writers[1], file) == 0);
    for (int number = 0; number < 3; number++) {
        WANT(!is_open(number) && write(number, "a message", 9) == -1);
    }
    WANT(zevk_file_publish(writers[0]) == 0 && zevk_file_publish(writers[1]) == 0);
    WANT(is_kept("store", "store.part") && is_kept("new", "new.part"));
    zevk_file_close(file);
    for (int number = 0; number < 3; number++) {
        WANT(kept[number] < 0 || (dup2(kept[number], number) == number && close(kept[number]) == 0));
    }
}

static void errors_have_texts(void) {
    char text[ZEVK_TEXT_LEN];
    WANT(strcmp(zevk_strerror(-ENOENT), strerror(ENOENT)) == 0);
    WANT(strcmp(zevk_strerror(ZEVK_BUSY), "another writer writes this file") == 0);
    for (int error = 0; error < 100; error++) {
        zevk_refusal_text((uint32_t)error, (uint8_t *)text, sizeof text);
        int is_known = strcmp(zevk_strerror(error), "unknown error") != 0;
        WANT(is_known == (strcmp(text, "unknown refusal") != 0 || (error >= ZEVK_BUSY && error <= ZEVK_FAILED)));
    }
}

int main(int argc, char **argv) {
    WANT(argc == 2 && chdir(argv[1]) == 0 && mkdir("folder", 0700) == 0 && chdir("folder") == 0);
    files_are_refused();
    unknown_flags_are_refused();
    damage_is_passed(0);
    damage_is_passed(ZEVK_FILE_CHECKED);
    damage_is_passed(ZEVK_FILE_SCATTERED);
    damage_is_passed(ZEVK_FILE_CHECKED | ZEVK_FILE_SCATTERED);
    other_second_files_are_refused();
    files_are_not_replaced_unasked();
    writers_are_refused();
    old_versions_are_refused();
    folders_are_kept();
    standard_descriptors_stay_free();
    errors_have_texts();
    return 0;
}
