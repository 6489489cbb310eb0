// Files, read in blocks.
#pragma once

#include "circuit.hpp"

#include <fcntl.h>
#include <sys/stat.h>
#include <unistd.h>

// An open file. A fault of it is told by the name of its part.
class Source {
public:
    Source(const char* path, const char* part) : part(part), file(open(path, O_RDONLY)) {
        struct stat status;
        if (file < 0 || fstat(file, &status) != 0) fail();
        if (S_ISREG(status.st_mode)) bytes = size_t(status.st_size);
    }
    Source(const Source&) = delete;
    ~Source() { close(file); }

    // Reads some bytes, at most `room`; none at the end.
    size_t take(char* to, size_t room) {
        ssize_t count = read(file, to, room);
        if (count < 0) fail();
        return size_t(count);
    }

    // Reads all that is left.
    void take_rest(Array<char>& to) {
        for (;;) {
            size_t count = take(to.behind(block), block);
            if (count == 0) return;
            to.add(count);
        }
    }

    // The size of a regular file, else 0.
    size_t size() const { return bytes; }

    static constexpr size_t block = 1 << 16;

private:
    const char* part;
    int file;
    size_t bytes = 0;

    [[noreturn]] void fail() const { throw Refusal{std::string(part) + ": input or output", 3}; }
};

// The lines of a file, in blocks. What is behind the last LF is left.
class Lines {
public:
    explicit Lines(Source& source) : source(source), bytes(2 * Source::block) {}

    // Calls with the ends of each line, the second of which is its LF, and before each further read.
    template <class Line, class Wait>
    void each(Line line, Wait wait) {
        for (;;) {
            size_t held = bytes.size();
            size_t count = source.take(bytes.behind(Source::block), Source::block);
            if (count == 0) return;
            bytes.add(count);
            const char* at = bytes.begin();
            const char* unsearched = at + held;
            const char* end = bytes.end();
            while (const void* found = memchr(unsearched, '\n', size_t(end - unsearched))) {
                const char* ending = static_cast<const char*>(found);
                line(at, ending);
                at = unsearched = ending + 1;
            }
            bytes.remove_first(size_t(at - bytes.begin()));
            wait();
        }
    }

    bool is_unfinished() const { return bytes.size() > 0; }

private:
    Source& source;
    Array<char> bytes;
};
