// Three-valued simulation, a byte a cell.
#pragma once

#include "checker.hpp"
#include "circuit.hpp"
#include "input.hpp"
#include "writer.hpp"

#include <vector>

// The codes of values: AND is the AND of the codes. A type of its own: what is written through a pointer to bytes could be
// anything, as far as the compiler knows, and a pointer to codes points to codes alone.
enum Code : uint8_t { zero = 0, unknown = 1, one = 3, no_code = 0x80 };

// The code of a literal by its sign and its variable's code.
inline constexpr Code signed_code[8] = {zero, unknown, no_code, one, one, unknown, no_code, zero};
// The character of a literal by the same.
inline constexpr char signed_character[] = "0x?11x?0";

inline Code value(const Code* cells, uint32_t literal) { return signed_code[(literal & 1) << 2 | cells[literal >> 1]]; }

inline Code both(const Code* cells, uint32_t rhs0, uint32_t rhs1) {
    return Code(value(cells, rhs0) & value(cells, rhs1));
}

inline char character(const Code* cells, uint32_t literal) {
    return signed_character[(literal & 1) << 2 | cells[literal >> 1]];
}

// The code of a character; of any other byte one with the high bit.
struct Codes {
    Code of[256];
    constexpr Codes() : of() {
        for (Code& code : of) code = no_code;
        of[uint8_t('0')] = zero;
        of[uint8_t('1')] = one;
        of[uint8_t('x')] = unknown;
    }
};
inline constexpr Codes codes;

inline Code reset_code(const Latch& latch) { return latch.reset == 0 ? zero : latch.reset == 1 ? one : unknown; }

// The circuit's gates in an order in which each is behind those that it reads.
inline Array<Gate> gates_in_order(Circuit& circuit) {
    if (circuit.is_ordered) return std::move(circuit.gates);
    return Levels(circuit).ordered_gates();
}

inline void evaluate(Code* cells, const Array<Gate>& gates) {
    for (const Gate& gate : gates) cells[gate.lhs >> 1] = both(cells, gate.rhs0, gate.rhs1);
}

// Takes a stimulus line's values into the cells of the inputs; whether all bytes are values.
inline bool take_row(const Circuit& circuit, const char* line, Code* cells) {
    uint8_t seen = 0;
    for (uint32_t input : circuit.inputs) {
        Code code = codes.of[uint8_t(*line++)];
        seen |= code;
        cells[input >> 1] = code;
    }
    return seen < 0x80;
}

[[noreturn]] inline void refuse_line(const char* line, size_t length, uint64_t number) {
    bool are_values = true;
    for (size_t place = 0; place < length; ++place) are_values &= codes.of[uint8_t(line[place])] < 0x80;
    throw Refusal{(are_values ? "stimulus: length of line " : "stimulus: character in line ") + std::to_string(number)};
}

class Simulator {
public:
    Simulator(Circuit whole, Output& out)
        : circuit(std::move(whole)), gates(gates_in_order(circuit)), cells(circuit.max_var + 1, unknown), out(out) {
        cells[0] = zero;
        for (const Latch& latch : circuit.latches) {
            states.push_back(reset_code(latch));
            state_text.push(signed_character[states.back()]);
        }
    }

    void run(Source& stimulus) {
        Lines rows(stimulus);
        rows.each([&](const char* line, const char* ending) { step(line, size_t(ending - line)); },
                  [&] { out.flush(); });
        if (rows.is_unfinished()) throw Refusal{"stimulus: unfinished"};
    }

private:
    Circuit circuit;
    Array<Gate> gates;
    std::vector<Code> cells, states;
    Array<char> state_text;
    Output& out;
    uint64_t lines = 0;

    // Takes a line of values, and writes that of the trace.
    void step(const char* line, size_t length) {
        ++lines;
        if (length != circuit.inputs.size() || !take_row(circuit, line, cells.data()))
            refuse_line(line, length, lines);
        const Code* state = states.data();
        for (const Latch& latch : circuit.latches) cells[latch.lit >> 1] = *state++;
        evaluate(cells.data(), gates);
        out.put(state_text);
        out.put(' ');
        out.put(line, length);
        out.put(' ');
        put_values(circuit.outputs);
        out.put(' ');
        for (size_t place = 0; place < states.size(); ++place) {
            states[place] = value(cells.data(), circuit.latches[place].next);
            state_text[place] = signed_character[states[place]];
        }
        out.put(state_text);
        out.put('\n');
    }

    void put_values(const Array<uint32_t>& literals) {
        for (size_t place = 0; place < literals.size();) {
            size_t behind = std::min(literals.size(), place + 4096);
            char* to = out.room(4096);
            for (; place < behind; ++place) *to++ = character(cells.data(), literals[place]);
            out.advance(to);
        }
    }
};
