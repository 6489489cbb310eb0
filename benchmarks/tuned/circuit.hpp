// The parts of a circuit, and arrays whose room is not touched before it is needed.
#pragma once

#include <algorithm>
#include <cstddef>
#include <cstdint>
#include <cstring>
#include <memory>
#include <string>

// Why a file is refused, in the words of `aig`.
struct Refusal {
    std::string text;
    int status = 1;
};

// An array of plain items that grows.
template <class T>
class Array {
public:
    Array() = default;
    explicit Array(size_t room) : items(new T[room]), room(room) {}
    void push(T item) {
        if (length == room) grow(2 * room + 16);
        items[length++] = item;
    }
    // Room for so many more items at the end, which `add` takes in.
    T* behind(size_t count) {
        if (length + count > room) grow(2 * room + count);
        return end();
    }
    void add(size_t count) { length += count; }
    void remove_first(size_t count) {
        std::copy(begin() + count, end(), begin());
        length -= count;
    }
    T& operator[](size_t place) { return items[place]; }
    const T& operator[](size_t place) const { return items[place]; }
    T* begin() { return items.get(); }
    T* end() { return items.get() + length; }
    const T* begin() const { return items.get(); }
    const T* end() const { return items.get() + length; }
    size_t size() const { return length; }

private:
    std::unique_ptr<T[]> items;
    size_t length = 0, room = 0;

    void grow(size_t wider) {
        std::unique_ptr<T[]> copy(new T[wider]);
        std::copy(begin(), end(), copy.get());
        items = std::move(copy);
        room = wider;
    }
};

// A latch line. A reset is 0, 1, or the latch's own literal.
struct Latch {
    uint32_t lit, next, reset;
};

struct Gate {
    uint32_t lhs, rhs0, rhs1;
};

// A name's section, position and length.
struct Symbol {
    uint32_t position, length;
    char kind;
};

// The parts of a circuit file, in the order of the file.
struct Circuit {
    bool is_binary = false;
    uint32_t max_var = 0;
    Array<uint32_t> inputs;
    Array<Latch> latches;
    Array<uint32_t> outputs, bad, constraints;
    Array<uint32_t> justice_sizes, justice;  // the literals of all properties, one behind the other
    Array<uint32_t> fairness;
    Array<Gate> gates;
    Array<Symbol> symbols;
    Array<char> names;  // of all symbols, one behind the other
    bool has_comment = false;
    Array<char> comment;
    // The greatest literal, resets and the gates of a binary file aside.
    uint32_t greatest_literal = 0;
    // Each gate reads smaller variables alone, so that there is no cycle.
    bool is_ascending = false;
    // And so do the gates stand in the file, so that each is behind those that it reads.
    bool is_ordered = false;
    // The variables are in order and the right sides do not rise, as the binary format wants it.
    bool is_ready = false;
};
