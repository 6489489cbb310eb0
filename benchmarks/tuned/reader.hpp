// Reads a circuit file, text or binary.
#pragma once

#include "circuit.hpp"
#include "input.hpp"

#include <vector>

// Reads a file block by block. Before each entry there are bytes enough in hand for every entry but a name, or all that
// are left, with some behind them at which every reading stops: no digit, no blank, no end of a delta.
class Reader {
public:
    explicit Reader(Source& source) : source(source), bytes(new uint8_t[room_of_block]), at(bytes.get()), end(at) {
        refill();
    }

    Circuit read() {
        read_word();
        Counts counts = read_counts();
        circuit.max_var = counts.max_var;
        if (circuit.is_binary)
            read_binary(counts);
        else
            read_ascii(counts);
        read_names(counts);
        return std::move(circuit);
    }

private:
    static constexpr uint32_t count_limit = 4'194'303;
    static constexpr uint32_t number_limit = 8'388'607;

    struct Counts {
        uint32_t max_var, inputs, latches, outputs, gates;
        uint32_t others[4] = {0, 0, 0, 0};
    };

    static constexpr size_t in_hand = 64;
    static constexpr size_t padding = 8;
    static constexpr size_t room_of_block = in_hand + Source::block + padding;

    Source& source;
    std::unique_ptr<uint8_t[]> bytes;
    const uint8_t *at, *end;
    size_t before = 0;  // how many bytes of the file are before those in the block
    bool is_at_end = false;
    Circuit circuit;
    uint32_t greatest = 0;  // of the literals so far

    void need_entry() {
        if (size_t(end - at) < in_hand) refill();
    }

    // Reads on until there are bytes enough for an entry, or no more.
    void refill() {
        size_t held = size_t(end - at);
        before += size_t(at - bytes.get());
        memmove(bytes.get(), at, held);
        while (held < in_hand && !is_at_end) {
            size_t count = source.take(reinterpret_cast<char*>(bytes.get()) + held, Source::block);
            is_at_end = count == 0;
            held += count;
        }
        at = bytes.get();
        end = at + held;
        memset(bytes.get() + held, 0x80, padding);
    }

    [[noreturn]] void refuse(const uint8_t* place) const {
        size_t offset = before + size_t(std::min(place, end) - bytes.get());
        throw Refusal{"circuit: text at " + std::to_string(offset)};
    }
    [[noreturn]] static void refuse_limit() { throw Refusal{"circuit: limit"}; }

    // How many bytes are left of a file, or in the block of what is none.
    size_t left() const {
        size_t taken = before + size_t(at - bytes.get());
        return std::max(source.size(), taken + size_t(end - at)) - taken;
    }

    // Room for so many entries at once, but never for more than the bytes that are left can spell.
    template <class T>
    Array<T> room(uint32_t count, size_t bytes_each) const {
        return Array<T>(std::min<size_t>(count, left() / bytes_each + 1));
    }

    // ---- tokens

    uint32_t number(uint32_t bound = number_limit) {
        const uint8_t* place = at;
        uint32_t value = uint32_t(*place++) - '0';
        if (value > 9) refuse(at);
        uint32_t digit = uint32_t(*place) - '0';
        if (value == 0 && digit <= 9) refuse(at);
        while (digit <= 9) {
            value = value * 10 + digit;
            if (value > bound) refuse_limit();
            digit = uint32_t(*++place) - '0';
        }
        at = place;
        return value;
    }

    void byte(uint8_t wanted) {
        if (*at != wanted) refuse(at);
        ++at;
    }

    // ---- entries

    uint32_t literal(uint8_t ending) {
        uint32_t value = number();
        byte(ending);
        greatest = std::max(greatest, value);
        return value;
    }

    // A number in groups of seven bits, at most four of them, in its shortest form.
    uint32_t delta() {
        uint32_t value = *at;
        if (value < 0x80) {
            ++at;
            return value;
        }
        value &= 0x7f;
        const uint8_t* place = at + 1;
        for (int shift = 7; shift <= 21; shift += 7, ++place) {
            uint32_t group = *place;
            value |= (group & 0x7f) << shift;
            if (group < 0x80) {
                if (group == 0) refuse(at);
                at = place + 1;
                return value;
            }
        }
        refuse(at);
    }

    // ---- the header line

    void read_word() {
        bool is_text = at[1] == 'a';
        const char* word = is_text ? "aag " : "aig ";
        size_t length = std::min<size_t>(size_t(end - at), 4);
        if (memcmp(at, word, length) != 0) refuse(at);
        if (length < 4) refuse(end);
        circuit.is_binary = !is_text;
        at += 4;
    }

    uint32_t count(uint8_t ending) {
        uint32_t value = number(count_limit);
        byte(ending);
        return value;
    }

    Counts read_counts() {
        Counts counts;
        counts.max_var = count(' ');
        counts.inputs = count(' ');
        counts.latches = count(' ');
        counts.outputs = count(' ');
        counts.gates = number(count_limit);
        for (uint32_t& other : counts.others) {
            if (*at != ' ') break;
            ++at;
            other = number(count_limit);
        }
        byte('\n');
        uint32_t defined = counts.inputs + counts.latches + counts.gates;
        if (counts.max_var < defined || (circuit.is_binary && counts.max_var != defined))
            throw Refusal{"circuit: counts"};
        return counts;
    }

    // ---- sections

    Array<uint32_t> literals(uint32_t count) {
        Array<uint32_t> made = room<uint32_t>(count, 2);
        for (uint32_t place = 0; place < count; ++place) {
            need_entry();
            made.push(literal('\n'));
        }
        return made;
    }

    // The rest of a latch line.
    Latch latch(uint32_t lit) {
        Latch made{lit, number(), 0};
        greatest = std::max(greatest, made.next);
        if (*at == ' ') {
            ++at;
            made.reset = number();
        }
        byte('\n');
        return made;
    }

    void read_properties(const Counts& counts) {
        circuit.outputs = literals(counts.outputs);
        circuit.bad = literals(counts.others[0]);
        circuit.constraints = literals(counts.others[1]);
        circuit.justice_sizes = room<uint32_t>(counts.others[2], 2);
        uint32_t total = 0;
        for (uint32_t place = 0; place < counts.others[2]; ++place) {
            need_entry();
            uint32_t size = number();
            total += size;
            if (total > count_limit) refuse_limit();
            byte('\n');
            circuit.justice_sizes.push(size);
        }
        circuit.justice = literals(total);
        circuit.fairness = literals(counts.others[3]);
    }

    void read_ascii(const Counts& counts) {
        circuit.inputs = literals(counts.inputs);
        circuit.latches = room<Latch>(counts.latches, 4);
        for (uint32_t place = 0; place < counts.latches; ++place) {
            need_entry();
            circuit.latches.push(latch(literal(' ')));
        }
        read_properties(counts);
        circuit.gates = room<Gate>(counts.gates, 6);
        for (uint32_t place = 0; place < counts.gates; ++place) {
            need_entry();
            uint32_t lhs = literal(' ');
            uint32_t rhs0 = literal(' ');
            uint32_t rhs1 = literal('\n');
            circuit.gates.push({lhs, rhs0, rhs1});
        }
        circuit.greatest_literal = greatest;
    }

    // The deltas keep the sides in range, in order, and without a cycle.
    void read_binary(const Counts& counts) {
        uint32_t lit = 2 * counts.inputs;
        circuit.latches = room<Latch>(counts.latches, 2);
        for (uint32_t place = 0; place < counts.latches; ++place) {
            need_entry();
            circuit.latches.push(latch(lit += 2));
        }
        read_properties(counts);
        circuit.gates = room<Gate>(counts.gates, 2);
        for (uint32_t place = 0; place < counts.gates; ++place) {
            need_entry();
            lit += 2;
            const uint8_t* start = at;
            uint32_t rhs0 = lit - delta();
            if (rhs0 >= lit) refuse(start);
            start = at;
            uint32_t rhs1 = rhs0 - delta();
            if (rhs1 > rhs0) refuse(start);
            circuit.gates.push({lit, rhs0, rhs1});
        }
        circuit.greatest_literal = greatest;
    }

    // ---- symbols and comment

    static int section_of(uint8_t letter) {
        switch (letter) {
        case 'i': return 0;
        case 'l': return 1;
        case 'o': return 2;
        case 'b': return 3;
        case 'c': return 4;
        case 'j': return 5;
        case 'f': return 6;
        default: return -1;
        }
    }

    void read_names(const Counts& counts) {
        const uint32_t sizes[7] = {counts.inputs,    counts.latches,   counts.outputs,  counts.others[0],
                                   counts.others[1], counts.others[2], counts.others[3]};
        // The inputs of a binary file take no bytes, so they are listed where the gates are there.
        if (circuit.is_binary) {
            circuit.inputs = Array<uint32_t>(counts.inputs);
            for (uint32_t place = 1; place <= counts.inputs; ++place) circuit.inputs.push(2 * place);
        }
        size_t total = 0;
        for (uint32_t size : sizes) total += size;
        circuit.symbols = Array<Symbol>(std::min(total, left() / 5 + 1));
        circuit.names = Array<char>(left());
        std::vector<bool> named[7];
        for (;;) {
            need_entry();
            if (at == end) return;
            uint8_t kind = *at++;
            if (kind == 'c' && *at == '\n') {
                ++at;
                read_comment();
                return;
            }
            int section = section_of(kind);
            if (section < 0) refuse(at - 1);
            if (kind == 'c' && uint32_t(*at) - '0' > 9) refuse(at);
            const uint8_t* start = at;
            uint32_t position = number();
            if (position >= sizes[section]) refuse(start);
            if (named[section].empty()) named[section].resize(sizes[section]);
            if (named[section][position]) refuse(start);
            named[section][position] = true;
            byte(' ');
            circuit.symbols.push({position, read_name(), char(kind)});
        }
    }

    // A name and the end of its line; how long it is.
    uint32_t read_name() {
        if (*at == '\n') refuse(at);
        uint32_t length = 0;
        for (;;) {
            const void* found = memchr(at, '\n', size_t(end - at));
            size_t count = found ? size_t(static_cast<const uint8_t*>(found) - at) : size_t(end - at);
            memcpy(circuit.names.behind(count), at, count);
            circuit.names.add(count);
            length += uint32_t(count);
            at += count;
            if (found) {
                ++at;
                return length;
            }
            refill();
            if (at == end) refuse(end);
        }
    }

    void read_comment() {
        circuit.has_comment = true;
        size_t count = size_t(end - at);
        circuit.comment = Array<char>(left() + Source::block);
        memcpy(circuit.comment.begin(), at, count);
        circuit.comment.add(count);
        source.take_rest(circuit.comment);
    }
};
