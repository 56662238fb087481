// The classes for C++: stores are written, appended to and read, and an error is an exception.
//
// usage: wrapper FOLDER
#include "zevkhadun.hpp"

#include <cerrno>
#include <string>
#include <utility>
#include <vector>

#include "stores.h"

using zevkhadun::Closed;
using zevkhadun::Error;
using zevkhadun::File;
using zevkhadun::Writer;

// The number of the error that a function throws, or 0.
template <class Function>
static int error_of(Function function) {
    try {
        function();
    } catch (const Error &error) {
        WANT(std::string(error.what()).find(zevk_strerror(error.number())) != std::string::npos);
        return error.number();
    }
    return 0;
}

static std::vector<std::string> documents_of(const File &file) {
    std::vector<std::string> documents;
    file.each([&](std::uint32_t id, std::string_view document) {
        WANT(id == documents.size() && document == file[id]);
        documents.emplace_back(document);
    });
    WANT(documents.size() == file.size());
    return documents;
}

// Whether a call of a writer that ended throws Closed, which is an Error of number 0.
template <class Function>
static bool is_closed(Function function) {
    try {
        function();
    } catch (const Error &error) {
        return dynamic_cast<const Closed *>(&error) != nullptr && error.number() == 0;
    }
    return false;
}

// Calls of a writer that was published, that failed to publish, or that was moved from.
static void ended_writers_throw(const std::string &path, const File &file) {
    Writer writer(path);
    WANT(writer.put("apple") == 0);
    Writer moved = std::move(writer);
    WANT(is_closed([&] { writer.put("lost"); }));
    WANT(moved.put("banana") == 1);
    moved.publish();
    for (Writer *ended : {&writer, &moved}) {
        WANT(is_closed([&] { ended->put("lost"); }) && is_closed([&] { ended->stack(file); }));
        WANT(is_closed([&] { ended->publish(); }));
    }
    WANT(File(path).size() == 2);
}

int main(int argc, char **argv) {
    WANT(argc == 2);
    const std::string path = std::string(argv[1]) + "/store", other = std::string(argv[1]) + "/other";
    Writer writer(path);
    WANT(writer.put("apple") == 0 && writer.put("") == 1);
    WANT(error_of([&] { Writer second(path); }) == ZEVK_BUSY);
    WANT(error_of([&] { File file(path); }) < 0);
    writer.publish();
    {
        Writer discarded = Writer::append(path);
        WANT(discarded.put("lost") == 2);
    }
    Writer more = Writer::append(path, 100);
    WANT(more.put(std::string(200, 'x')) == 2);
    more.publish();
    const File file(path, ZEVK_FILE_CHECKED), unchecked(path);
    const std::vector<std::string> wanted = {"apple", "", std::string(200, 'x')};
    WANT(documents_of(file) == wanted && documents_of(unchecked) == wanted);
    WANT(error_of([&] { WANT(file[3].empty()); }) == ZEVK_NO_DOCUMENT);
    Writer stacked(other, 0, 16384, 64);
    stacked.stack(file);
    stacked.stack(unchecked);
    WANT(stacked.put("end") == 6);
    stacked.publish();
    WANT(documents_of(File(other)).size() == 7 && File(other)[6] == "end");
    WANT(error_of([&] { Writer kept(other); }) == -EEXIST && File(other).size() == 7);
    Writer(other, ZEVK_FILE_REPLACE).publish();
    WANT(File(other).size() == 0 && error_of([&] { Writer wrong(other, 100); }) == -EINVAL);
    ended_writers_throw(std::string(argv[1]) + "/ended", file);
    return 0;
}
