// The steps of a proof in DRAT, as text or binary, read in blocks.
#pragma once

#include "input.hpp"

#include <cstdint>
#include <string>
#include <vector>

class Proof {
public:
    Proof(Source& source, uint32_t variables) : source(source), variables(variables), bytes(Source::block) {}

    bool deletes = false;
    std::vector<uint32_t> clause;  // of the last step: 2 * variable + sign

    // Reads a step, unless there is none.
    bool next() {
        if (!is_known) look();
        return is_binary ? next_binary() : next_text();
    }

private:
    Source& source;
    uint32_t variables;
    Array<char> bytes;
    const char *at = nullptr, *end = nullptr;
    uint64_t place = 0;  // of the block's first byte
    int previous = '\n';
    bool is_known = false, is_binary = false;

    static constexpr int none = -1;

    uint64_t taken() const { return place + uint64_t(at - bytes.begin()); }
    [[noreturn]] void fail(uint64_t where) const { throw Refusal{"proof: text at " + std::to_string(where)}; }

    // A text does not begin with `a`, has a blank behind a `d`, and no zero byte.
    void look() {
        is_known = true;
        size_t count = 0;
        while (count < block) {
            size_t more = source.take(bytes.begin() + count, block - count);
            if (more == 0) break;
            count += more;
        }
        at = bytes.begin();
        end = at + count;
        if (count == 0) return;
        bool blank = count > 1 && (at[1] == ' ' || at[1] == '\t');
        is_binary = *at == 'a' || (*at == 'd' && count > 1 && (!blank || memchr(at, 0, count)));
    }
    static constexpr size_t block = 32768;

    int peek() {
        if (at == end) {
            if (!end) return none;
            uint64_t behind = taken();
            size_t count = source.take(bytes.begin(), Source::block);
            place = behind;
            at = bytes.begin();
            end = at + count;
            if (count == 0) return none;
        }
        return uint8_t(*at);
    }
    void skip() { previous = uint8_t(*at++); }

    bool next_binary() {
        uint64_t start = taken();
        int kind = peek();
        if (kind == none) return false;
        if (kind != 'a' && kind != 'd') fail(start);
        skip();
        deletes = kind == 'd';
        clause.clear();
        for (;;) {
            start = taken();
            uint64_t number = binary_number();
            if (number == 0) return true;
            put(number >> 1, number & 1, start);
        }
    }

    uint64_t binary_number() {
        uint64_t start = taken(), number = 0;
        for (int shift = 0; shift < 35; shift += 7) {
            int byte = peek();
            if (byte == none) fail(taken());
            skip();
            number |= uint64_t(byte & 127) << shift;
            if (byte >= 128) continue;
            if (byte == 0 && shift > 0) fail(start);
            return number;
        }
        fail(start);
    }

    bool next_text() {
        skip_blanks();
        if (peek() == none) return false;
        deletes = peek() == 'd';
        if (deletes) {
            skip();
            end_word();
        }
        clause.clear();
        for (;;) {
            skip_blanks();
            uint64_t start = taken();
            bool negated = peek() == '-';
            if (negated) skip();
            uint64_t number = text_number();
            end_word();
            if (number == 0 && !negated) return true;
            put(number, negated, start);
        }
    }

    static bool is_blank(int byte) { return byte == ' ' || byte == '\t' || byte == '\n'; }
    static bool is_digit(int byte) { return byte >= '0' && byte <= '9'; }

    void skip_blanks() {
        for (;;) {
            int byte = peek();
            if (byte == 'c' && previous == '\n') {
                while (peek() != none && peek() != '\n') skip();
            } else if (!is_blank(byte)) {
                return;
            }
            if (peek() != none) skip();
        }
    }

    void end_word() {
        int byte = peek();
        if (byte != none && !is_blank(byte)) fail(taken());
    }

    // A number without leading zeros; a great one is cut off at a bound.
    uint64_t text_number() {
        if (!is_digit(peek())) fail(taken());
        uint64_t number = 0;
        bool is_zero = peek() == '0';
        do {
            number = std::min<uint64_t>(10 * number + uint64_t(peek() - '0'), 1'000'000'000'000);
            skip();
        } while (!is_zero && is_digit(peek()));
        return number;
    }

    void put(uint64_t number, bool negated, uint64_t start) {
        if (number == 0 || number > variables) fail(start);
        clause.push_back(uint32_t(2 * (number - 1) + negated));
    }
};
