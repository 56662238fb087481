/* zevkhadun.hpp: stores by path for C++17, over zevkhadun_file.h. An error is an exception.
 *
 * Files and writers are moved and not copied. A writer that was published or moved from throws Closed in each of its
 * calls. A file that was moved from may be destroyed or assigned to, and nothing else: its other calls are not
 * checked. */
#ifndef ZEVKHADUN_HPP
#define ZEVKHADUN_HPP

#include <cstddef>
#include <cstdint>
#include <memory>
#include <stdexcept>
#include <string>
#include <string_view>

#include "zevkhadun_file.h"

namespace zevkhadun {

/* An error of a call: its number, as zevkhadun_file.h has it, and its text after the path of the file. */
class Error : public std::runtime_error {
public:
    Error(int number, const std::string &path)
        : std::runtime_error(path + ": " + zevk_strerror(number)), number_(number) {}
    int number() const noexcept { return number_; }

protected:
    explicit Error(const std::string &text) : std::runtime_error(text), number_(0) {}

private:
    int number_;
};

/* A call of a writer that was published or moved from. The library was not called, and the number is 0. */
class Closed : public Error {
public:
    explicit Closed(const std::string &path) : Error(path + ": the writer is closed") {}
};

/* What a file and a writer share: the path, for errors. */
class Named {
protected:
    explicit Named(const std::string &path) : path_(path) {}
    void check(int error) const {
        if (error != 0) throw Error(error, path_);
    }
    std::string path_;
};

/* An open store. Its documents are views of the mapped file; they end with it, or with the file to which it was
 * moved. */
class File : Named {
public:
    explicit File(const std::string &path, unsigned flags = 0) : Named(path) {
        zevk_file *file = nullptr;
        check(zevk_file_open(path.c_str(), flags, &file));
        file_.reset(file);
    }
    std::uint32_t size() const noexcept { return zevk_file_num_docs(file_.get()); }
    std::string_view operator[](std::uint32_t id) const {
        zevk_document document;
        check(zevk_file_get(file_.get(), id, &document));
        return {reinterpret_cast<const char *>(document.bytes), document.len};
    }
    /* Calls `function(id, document)` for each document in order. */
    template <class Function>
    void each(Function function) const {
        zevk_cursor cursor;
        zevk_document document;
        zevk_cursor_begin(&cursor, file_.get(), 0);
        int error = zevk_cursor_next(&cursor, &document);
        for (; error == 0; error = zevk_cursor_next(&cursor, &document)) {
            function(cursor.doc_id, std::string_view(reinterpret_cast<const char *>(document.bytes), document.len));
        }
        if (error != ZEVK_NO_DOCUMENT) check(error);
    }
    const zevk_file *get() const noexcept { return file_.get(); }

private:
    struct Close {
        void operator()(zevk_file *file) const { zevk_file_close(file); }
    };
    std::unique_ptr<zevk_file, Close> file_;
};

/* A store that is being written. Without publish() the file of the name stays as it was. */
class Writer : Named {
public:
    /* A file that has the name is an error, of the number -EEXIST, unless the flags have ZEVK_FILE_REPLACE. */
    explicit Writer(const std::string &path, unsigned flags = 0, std::size_t block_size = 16384, unsigned period = 8)
        : Named(path) {
        zevk_file_writer *writer = nullptr;
        check(zevk_file_create(path.c_str(), flags, block_size, period, &writer));
        writer_.reset(writer);
    }
    /* A writer that begins with the documents of the store of this name, which it will replace. */
    static Writer append(const std::string &path, std::size_t block_size = 16384, unsigned period = 0) {
        Begun begun{nullptr};
        const int error = zevk_file_append(path.c_str(), block_size, period, &begun.writer);
        if (error != 0) throw Error(error, path);
        return Writer(path, begun);
    }
    std::uint32_t put(std::string_view document) {
        std::uint32_t id = 0;
        check(zevk_file_put(open(), document.data(), document.size(), &id));
        return id;
    }
    void stack(const File &file) { check(zevk_file_stack(open(), file.get())); }
    /* Ends the writer, also if it fails: every later call throws Closed. */
    void publish() {
        open();
        check(zevk_file_publish(writer_.release()));
    }

private:
    struct Begun {
        zevk_file_writer *writer;
    };
    Writer(const std::string &path, Begun begun) : Named(path), writer_(begun.writer) {}
    zevk_file_writer *open() const {
        if (!writer_) throw Closed(path_);
        return writer_.get();
    }
    struct Discard {
        void operator()(zevk_file_writer *writer) const { zevk_file_discard(writer); }
    };
    std::unique_ptr<zevk_file_writer, Discard> writer_;
};

}  // namespace zevkhadun

#endif
