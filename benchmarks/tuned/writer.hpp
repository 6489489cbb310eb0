// Writes a circuit in either format.
#pragma once

#include "checker.hpp"
#include "circuit.hpp"

#include <cstring>
#include <unistd.h>
#include <vector>

// The pairs of digits 00 to 99.
struct Pairs {
    char digits[200];
    constexpr Pairs() : digits() {
        for (int number = 0; number < 100; ++number) {
            digits[2 * number] = char('0' + number / 10);
            digits[2 * number + 1] = char('0' + number % 10);
        }
    }
};
inline constexpr Pairs pairs;

// Standard output in blocks. A failing write is told as a fault of the part, and not tried again.
class Output {
public:
    const char* part = "output";

    // Room for so many bytes, at most a block; `advance` takes in what was put there.
    char* room(size_t count) {
        if (size + count > block) flush();
        return bytes + size;
    }
    void advance(char* behind) { size = size_t(behind - bytes); }

    void put(char byte) {
        *room(1) = byte;
        ++size;
    }

    void put(const char* from, size_t count) {
        if (count > block / 2) {
            flush();
            write_all(from, count);
            return;
        }
        if (count == 0) return;
        memcpy(room(count), from, count);
        size += count;
    }

    void put(const Array<char>& text) { put(text.begin(), text.size()); }

    void flush() {
        size_t count = size;
        size = 0;
        write_all(bytes, count);
    }

    static constexpr size_t block = 1 << 16;

private:
    char bytes[block];
    size_t size = 0;

    void write_all(const char* from, size_t count) {
        while (count > 0) {
            ssize_t written = write(STDOUT_FILENO, from, count);
            if (written <= 0) throw Refusal{std::string(part) + ": input or output", 3};
            from += written;
            count -= size_t(written);
        }
    }
};

// A number in decimal; at most ten bytes.
inline char* put_number(char* to, uint32_t number) {
    auto pair = [&](uint32_t two) {
        memcpy(to, pairs.digits + 2 * two, 2);
        to += 2;
    };
    auto below_100 = [&](uint32_t two) {
        if (two >= 10)
            pair(two);
        else
            *to++ = char('0' + two);
    };
    if (number < 100) {
        below_100(number);
    } else if (number < 10'000) {
        below_100(number / 100);
        pair(number % 100);
    } else if (number < 1'000'000) {
        uint32_t high = number / 10'000, low = number % 10'000;
        below_100(high);
        pair(low / 100);
        pair(low % 100);
    } else {
        uint32_t high = number / 1'000'000, middle = number / 10'000 % 100, low = number % 10'000;
        if (high >= 100) {
            to = put_number(to, high);
        } else {
            below_100(high);
        }
        pair(middle);
        pair(low / 100);
        pair(low % 100);
    }
    return to;
}

// A number in groups of seven bits; at most five bytes.
inline char* put_delta(char* to, uint32_t number) {
    while (number >= 0x80) {
        *to++ = char(number | 0x80);
        number >>= 7;
    }
    *to++ = char(number);
    return to;
}

// What a literal is in the written file.
struct AsItStands {
    uint32_t operator()(uint32_t literal) const { return literal; }
};

class Renumbered {
public:
    // Inputs, latches and gates are in this order the variables 1, 2, ..
    Renumbered(const Circuit& circuit, const Array<Gate>& gates) : table(circuit.max_var + 1, 0) {
        uint32_t next = 0;
        for (uint32_t input : circuit.inputs) table[input >> 1] = next += 2;
        for (const Latch& latch : circuit.latches) table[latch.lit >> 1] = next += 2;
        for (const Gate& gate : gates) table[gate.lhs >> 1] = next += 2;
    }
    uint32_t operator()(uint32_t literal) const { return table[literal >> 1] | (literal & 1); }

private:
    std::vector<uint32_t> table;
};

class Writer {
public:
    Writer(const Circuit& circuit, Output& out) : circuit(circuit), out(out) {}

    void write_ascii() {
        AsItStands name;
        header("aag", circuit.max_var);
        lines(circuit.inputs, name);
        for (const Latch& latch : circuit.latches) {
            char* to = put_number(out.room(64), latch.lit);
            *to++ = ' ';
            out.advance(to);
            put_latch(latch, name);
        }
        properties(name);
        for (const Gate& gate : circuit.gates) {
            char* to = put_number(out.room(64), gate.lhs);
            *to++ = ' ';
            to = put_number(to, gate.rhs0);
            *to++ = ' ';
            to = put_number(to, gate.rhs1);
            *to++ = '\n';
            out.advance(to);
        }
        names();
    }

    void write_binary() {
        if (circuit.is_ready) {
            write_binary(circuit.gates, AsItStands());
        } else {
            Array<Gate> gates = Levels(circuit).ordered_gates();
            write_binary(gates, Renumbered(circuit, gates));
        }
    }

private:
    const Circuit& circuit;
    Output& out;

    void header(const char* word, uint32_t max_var) {
        const size_t counts[9] = {max_var,
                                  circuit.inputs.size(),
                                  circuit.latches.size(),
                                  circuit.outputs.size(),
                                  circuit.gates.size(),
                                  circuit.bad.size(),
                                  circuit.constraints.size(),
                                  circuit.justice_sizes.size(),
                                  circuit.fairness.size()};
        int last = 8;
        while (last > 4 && counts[last] == 0) --last;
        out.put(word, 3);
        for (int place = 0; place <= last; ++place) {
            char* to = out.room(64);
            *to++ = ' ';
            out.advance(put_number(to, uint32_t(counts[place])));
        }
        out.put('\n');
    }

    void line(uint32_t number) {
        char* to = put_number(out.room(64), number);
        *to++ = '\n';
        out.advance(to);
    }

    template <class Name>
    void lines(const Array<uint32_t>& list, const Name& name) {
        for (uint32_t literal : list) line(name(literal));
    }

    template <class Name>
    void put_latch(const Latch& latch, const Name& name) {
        char* to = put_number(out.room(64), name(latch.next));
        if (latch.reset != 0) {
            *to++ = ' ';
            to = put_number(to, name(latch.reset));
        }
        *to++ = '\n';
        out.advance(to);
    }

    template <class Name>
    void properties(const Name& name) {
        lines(circuit.outputs, name);
        lines(circuit.bad, name);
        lines(circuit.constraints, name);
        lines(circuit.justice_sizes, AsItStands());
        lines(circuit.justice, name);
        lines(circuit.fairness, name);
    }

    template <class Name>
    void write_binary(const Array<Gate>& gates, const Name& name) {
        size_t defined = circuit.inputs.size() + circuit.latches.size() + gates.size();
        header("aig", uint32_t(defined));
        for (const Latch& latch : circuit.latches) put_latch(latch, name);
        properties(name);
        for (const Gate& gate : gates) {
            uint32_t lhs = name(gate.lhs), a = name(gate.rhs0), b = name(gate.rhs1);
            uint32_t upper = std::max(a, b), lower = std::min(a, b);
            char* to = put_delta(out.room(64), lhs - upper);
            out.advance(put_delta(to, upper - lower));
        }
        names();
    }

    void names() {
        const char* name = circuit.names.begin();
        for (const Symbol& symbol : circuit.symbols) {
            char* to = out.room(64);
            *to++ = symbol.kind;
            to = put_number(to, symbol.position);
            *to++ = ' ';
            out.advance(to);
            out.put(name, symbol.length);
            name += symbol.length;
            out.put('\n');
        }
        if (circuit.has_comment) {
            out.put("c\n", 2);
            out.put(circuit.comment);
        }
    }
};
