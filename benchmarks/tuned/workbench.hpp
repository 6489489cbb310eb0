// Questions about a circuit and a stimulus, and edits of both; a byte a cell, all frames kept, changes carried on from
// gate to gate.
#pragma once

#include "events.hpp"
#include "input.hpp"
#include "simulator.hpp"

#include <optional>

class Workbench {
public:
    Workbench(Circuit whole, const Array<char>& stimulus, Output& out)
        : circuit(std::move(whole)), events(circuit), gates(gates_in_order(circuit)), roles(circuit.max_var + 1),
          out(out) {
        roles[0] = constant;
        for (uint32_t input : circuit.inputs) roles[input >> 1] = is_input;
        for (uint32_t place = 0; place < circuit.latches.size(); ++place)
            roles[circuit.latches[place].lit >> 1] = first_latch + place;
        for (const Gate& gate : gates) roles[gate.lhs >> 1] = is_gate;
        const char* at = stimulus.begin();
        const char* end = stimulus.end();
        std::vector<const char*> lines;
        while (at != end) {
            const void* found = memchr(at, '\n', size_t(end - at));
            if (!found) throw Refusal{"stimulus: unfinished"};
            const char* ending = static_cast<const char*>(found);
            if (size_t(ending - at) != circuit.inputs.size() || !are_values(at, ending))
                refuse_line(at, size_t(ending - at), lines.size() + 1);
            if (lines.size() == most_frames) throw Refusal{"stimulus: limit"};
            lines.push_back(at);
            at = ending + 1;
        }
        if (uint64_t(roles.size()) * lines.size() > most_cells) throw Refusal{"bench: limit"};
        for (const char* line : lines) fill_frame(line);
    }

    void run(Source& script) {
        Lines lines(script);
        lines.each([&](const char* line, const char* ending) { answer(line, ending); }, [&] { out.flush(); });
        if (lines.is_unfinished()) out.put("bad\n", 4);
    }

    // How many gates the edits evaluated.
    uint64_t evaluated() const { return events.evaluated; }

    // The number of a refusal; 0: none.
    using Fault = int;

    Fault set_bit(uint32_t frame, uint32_t position, Code code) {
        if (frame >= cells.size()) return 6;
        if (position >= circuit.inputs.size()) return 7;
        events.put(cells[frame].data(), circuit.inputs[position] >> 1, code);
        renew(frame);
        return 0;
    }

    // The letter of a literal at a frame.
    Fault ask(uint32_t frame, uint32_t literal, char& letter) const {
        Fault fault = fault_of(literal);
        if (fault == 0 && frame >= cells.size()) fault = 6;
        if (fault == 0) letter = character(cells[frame].data(), literal);
        return fault;
    }

    Fault rewire(uint32_t literal, uint32_t rhs0, uint32_t rhs1) {
        if (!has_role(literal, is_gate, is_gate)) return 1;
        if (Fault fault = fault_of(rhs0, rhs1)) return fault;
        if (!events.rewire(literal >> 1, rhs0, rhs1)) return 5;
        is_stale = true;
        renew(0, literal >> 1);
        return 0;
    }

    Fault append_gate(uint32_t rhs0, uint32_t rhs1) {
        if (Fault fault = fault_of(rhs0, rhs1)) return fault;
        if (circuit.max_var == 4'194'303 || uint64_t(circuit.max_var + 2) * cells.size() > most_cells) return 10;
        ++circuit.max_var;
        events.append(rhs0, rhs1);
        if (!is_stale) gates.push({2 * circuit.max_var, rhs0, rhs1});
        roles.push_back(is_gate);
        for (std::vector<Code>& row : cells) row.push_back(both(row.data(), rhs0, rhs1));
        return 0;
    }

    Fault add_frame(const char* line, size_t length) {
        if (length != circuit.inputs.size()) return 8;
        size_t frames = cells.size() + 1;
        if (frames > most_frames || uint64_t(roles.size()) * frames > most_cells) return 10;
        fill_frame(line);
        events.evaluated += gates.size();
        return 0;
    }

    Fault drop_frame() {
        if (cells.empty()) return 9;
        cells.pop_back();
        return 0;
    }

private:
    static constexpr size_t most_frames = 65'536;
    static constexpr uint64_t most_cells = 67'108'864;
    // What defines a variable; a latch is told by its position behind the others.
    enum Role : uint32_t { undefined, constant, is_input, is_gate, first_latch };
    Circuit circuit;
    Events events;
    // The gates in an order for new frames; after a rewire it is made anew when it is next wanted.
    Array<Gate> gates;
    bool is_stale = false;
    std::vector<uint32_t> roles;
    std::vector<std::vector<Code>> cells;
    Output& out;

    static bool are_values(const char* at, const char* ending) {
        uint8_t seen = 0;
        for (; at != ending; ++at) seen |= codes.of[uint8_t(*at)];
        return seen < 0x80;
    }

    Code state(size_t frame, const Latch& latch) const {
        return frame == 0 ? reset_code(latch) : value(cells[frame - 1].data(), latch.next);
    }

    // A new last frame, swept.
    void fill_frame(const char* line) {
        if (is_stale) gates = events.ordered_gates();
        is_stale = false;
        size_t frame = cells.size();
        cells.emplace_back(roles.size(), unknown);
        Code* row = cells.back().data();
        row[0] = zero;
        take_row(circuit, line, row);
        for (const Latch& latch : circuit.latches) row[latch.lit >> 1] = state(frame, latch);
        evaluate(row, gates);
    }

    // Evaluates what waits at a frame, and carries changed states on. A forced gate is evaluated at each frame.
    void renew(size_t frame, std::optional<uint32_t> forced = std::nullopt) {
        std::vector<uint32_t> changed;
        while (frame < cells.size()) {
            if (forced) events.link(*forced);
            events.settle(cells[frame].data());
            if (++frame == cells.size() || (events.carried.empty() && !forced)) break;
            changed.clear();
            changed.swap(events.carried);
            for (uint32_t place : changed) put_state(frame, circuit.latches[place]);
        }
        events.carried.clear();
    }

    void put_state(size_t frame, const Latch& latch) {
        events.put(cells[frame].data(), latch.lit >> 1, state(frame, latch));
    }

    // ---- lines

    // A number up to 2^32 - 1 without leading zeros, which the ending follows; `at` is behind that then.
    static bool take_number(const char*& at, char ending, uint32_t& number) {
        uint64_t value = uint64_t(uint8_t(*at)) - '0';
        if (value > 9) return false;
        const char* first = at++;
        for (uint32_t digit; (digit = uint32_t(uint8_t(*at)) - '0') <= 9; ++at) {
            value = value * 10 + digit;
            if (*first == '0' || value > 0xffff'ffff) return false;
        }
        number = uint32_t(value);
        return *at++ == ending;
    }

    static bool take_code(const char*& at, Code& code) {
        code = codes.of[uint8_t(*at++)];
        return code < 0x80 && *at++ == '\n';
    }

    void reply(Fault fault) {
        if (fault == 0) return out.put("ok\n", 3);
        char* to = out.room(8);
        memcpy(to, "no ", 3);
        to = put_number(to + 3, uint32_t(fault));
        *to++ = '\n';
        out.advance(to);
    }

    // Answers a line; the byte at its end is LF.
    void answer(const char* line, const char* ending) {
        uint32_t a, b, c;
        Code code;
        const char* at = line + 2;
        char letter = ending - line == 1 || (ending != line && line[1] == ' ') ? *line : '\n';
        bool is_alone = ending - line == 1;
        if (letter == 't' && is_alone) {
            for (const std::vector<Code>& row : cells) put_trace(row.data());
            out.put(".\n", 2);
        } else if (letter == '-' && is_alone) {
            reply(drop_frame());
        } else if (is_alone) {
            out.put("bad\n", 4);
        } else if (letter == 'v' && take_number(at, ' ', a) && take_number(at, '\n', b)) {
            answer_value(a, b);
        } else if (letter == 's' && take_number(at, ' ', a) && take_number(at, ' ', b) && take_code(at, code)) {
            reply(set_bit(a, b, code));
        } else if (letter == 'w' && take_number(at, ' ', a) && take_number(at, ' ', b) && take_number(at, '\n', c)) {
            reply(rewire(a, b, c));
        } else if (letter == 'r' && take_number(at, ' ', a) && take_code(at, code)) {
            reply(set_reset(a, code));
        } else if (letter == 'g' && take_number(at, ' ', a) && take_number(at, '\n', b)) {
            reply(append_gate(a, b));
        } else if (letter == 'o' && take_number(at, ' ', a) && take_number(at, '\n', b)) {
            reply(set_output(a, b));
        } else if (letter == '+' && are_values(at, ending)) {
            reply(add_frame(at, size_t(ending - at)));
        } else {
            out.put("bad\n", 4);
        }
    }

    Fault fault_of(uint32_t literal) const {
        return literal > 2 * circuit.max_var + 1 ? 3 : roles[literal >> 1] == undefined ? 4 : 0;
    }

    // Of two literals the fault with the smaller number.
    Fault fault_of(uint32_t one, uint32_t other) const {
        Fault a = fault_of(one), b = fault_of(other);
        return a == 0 ? b : b == 0 ? a : std::min(a, b);
    }

    bool has_role(uint32_t literal, uint32_t least, uint32_t most) const {
        if (literal % 2 != 0 || literal >> 1 > circuit.max_var) return false;
        uint32_t role = roles[literal >> 1];
        return role >= least && role <= most;
    }

    void answer_value(uint32_t frame, uint32_t literal) {
        char letter;
        if (Fault fault = ask(frame, literal, letter)) return reply(fault);
        char* to = out.room(2);
        to[0] = letter;
        to[1] = '\n';
        out.advance(to + 2);
    }

    Fault set_reset(uint32_t literal, Code code) {
        if (!has_role(literal, first_latch, ~0u)) return 2;
        Latch& latch = circuit.latches[roles[literal >> 1] - first_latch];
        latch.reset = code == zero ? 0 : code == one ? 1 : literal;
        if (!cells.empty()) put_state(0, latch);
        renew(0);
        return 0;
    }

    Fault set_output(uint32_t position, uint32_t literal) {
        if (Fault fault = fault_of(literal)) return fault;
        if (position >= circuit.outputs.size()) return 13;
        circuit.outputs[position] = literal;
        return 0;
    }

    template <class Entries, class LiteralOf>
    void put_field(const Code* cells, const Entries& entries, char ending, LiteralOf literal_of) {
        for (size_t place = 0; place < entries.size();) {
            size_t behind = std::min(entries.size(), place + 4096);
            char* to = out.room(4096);
            for (; place < behind; ++place) *to++ = character(cells, literal_of(entries[place]));
            out.advance(to);
        }
        out.put(ending);
    }

    void put_trace(const Code* cells) {
        auto itself = [](uint32_t literal) { return literal; };
        put_field(cells, circuit.latches, ' ', [](const Latch& latch) { return latch.lit; });
        put_field(cells, circuit.inputs, ' ', itself);
        put_field(cells, circuit.outputs, ' ', itself);
        put_field(cells, circuit.latches, '\n', [](const Latch& latch) { return latch.next; });
    }
};
