// The formula that a bad state is reached within some frames: its clauses, or in DIMACS with the comment lines of `aig
// cnf`. It is over the part of the circuit that the property reads, and has the gates that the goals depend on.
#pragma once

#include "circuit.hpp"
#include "part.hpp"
#include "writer.hpp"

#include <initializer_list>
#include <string>
#include <string_view>
#include <utility>
#include <vector>

// The names of a circuit's inputs, latches and bad state properties.
struct Names {
    std::vector<std::string_view> of_inputs, of_latches, of_bad;

    explicit Names(const Circuit& circuit)
        : of_inputs(circuit.inputs.size()), of_latches(circuit.latches.size()), of_bad(circuit.bad.size()) {
        const char* name = circuit.names.begin();
        for (const Symbol& symbol : circuit.symbols) {
            if (symbol.kind == 'i') of_inputs[symbol.position] = {name, symbol.length};
            if (symbol.kind == 'l') of_latches[symbol.position] = {name, symbol.length};
            if (symbol.kind == 'b') of_bad[symbol.position] = {name, symbol.length};
            name += symbol.length;
        }
    }
};

// Writes the lines of a formula.
class Dimacs {
protected:
    explicit Dimacs(Output& out) : out(out) {}

    Output& out;

    void put_text(std::string_view text) { out.put(text.data(), text.size()); }

    // The line that says what was asked for.
    void put_heading(std::string_view options, uint32_t property, std::string_view name) {
        put_text("c aig cnf ");
        put_text(options);
        put_text("--property ");
        put_named(property, name);
    }

    void put_input(uint32_t variable, uint32_t frame, uint32_t place, std::string_view name) {
        out.put("c i ", 4);
        put_number_field(variable);
        put_number_field(frame);
        put_named(place, name);
    }

    void put_latch(uint32_t variable, uint32_t place, std::string_view name) {
        out.put("c l ", 4);
        put_number_field(variable);
        put_named(place, name);
    }

    void put_goal(uint32_t literal, uint32_t frame) {
        out.put("c b ", 4);
        put_literal(literal);
        put_number_line(frame);
    }

    void put_head(uint32_t variables, uint32_t clauses) {
        out.put("p cnf ", 6);
        put_number_field(variables);
        put_number_line(clauses);
    }

    void put_named(uint32_t place, std::string_view name) {
        put_number_field(place);
        put_text(name);
        out.put('\n');
    }

    void put_number_field(uint32_t number) {
        char* to = put_number(out.room(16), number);
        *to++ = ' ';
        out.advance(to);
    }

    void put_number_line(uint32_t number) {
        char* to = put_number(out.room(16), number);
        *to++ = '\n';
        out.advance(to);
    }

    // A literal of a circuit, as one of the formula, and a space.
    static char* put_literal(char* to, uint32_t literal) {
        *to = '-';
        to = put_number(to + (literal & 1), (literal >> 1) + 1);
        *to++ = ' ';
        return to;
    }

    void put_literal(uint32_t literal) { out.advance(put_literal(out.room(16), literal)); }

    template <size_t count>
    static char* put_clause(char* to, const uint32_t (&literals)[count]) {
        for (uint32_t literal : literals) to = put_literal(to, literal);
        *to++ = '0';
        *to++ = '\n';
        return to;
    }

    template <size_t count>
    void clause(const uint32_t (&literals)[count]) {
        out.advance(put_clause(out.room(64), literals));
    }

    void put_gate(uint32_t lhs, uint32_t a, uint32_t b) {
        char* to = out.room(128);
        to = put_clause(to, {lhs ^ 1, a});
        to = put_clause(to, {lhs ^ 1, b});
        out.advance(put_clause(to, {lhs, a ^ 1, b ^ 1}));
    }
};

class Formula : Dimacs {
public:
    Formula(const Circuit& circuit, uint32_t frames, uint32_t property, Output& out)
        : Dimacs(out), circuit(circuit), frames(frames), property(property), part(circuit, asked(circuit, frames, property)) {
        guarded = circuit.constraints.size() > 0;
        for (uint32_t place : part.latches) starts += is_free(place);
        size = part.gates.size() + (guarded ? circuit.constraints.size() + 1 : 0);
        if (frames > 65536 || inputs() + frames * size > 4194303) throw Refusal{"cnf: limit"};
        unroll();
        find_cone();
    }

    void write() {
        put_heading("--frames " + std::to_string(frames) + " ", property, Names(circuit).of_bad[property]);
        origins();
        for (uint32_t frame = 0; frame < frames; ++frame) put_goal(goals[frame], frame);
        put_head(variables(), 3 * cone + 2);
        clause({1});
        for (uint32_t goal : goals) put_literal(goal);
        out.put("0\n", 2);
        each_gate([&](const Gate& gate) { put_gate(gate.lhs, gate.rhs0, gate.rhs1); });
    }

    uint32_t variables() const { return uint32_t(inputs() + frames * size + 1); }

    // Calls with each clause. Variable 0 is false.
    template <class EachClause>
    void each_clause(EachClause each) const {
        std::vector<uint32_t> literals;
        auto call = [&](std::initializer_list<uint32_t> clause) {
            literals.assign(clause);
            each(literals);
        };
        call({1});
        each(goals);
        each_gate([&](const Gate& gate) {
            call({gate.lhs ^ 1, gate.rhs0});
            call({gate.lhs ^ 1, gate.rhs1});
            call({gate.lhs, gate.rhs0 ^ 1, gate.rhs1 ^ 1});
        });
    }

private:
    const Circuit& circuit;
    uint32_t frames, property;
    Part part;
    bool guarded;
    uint64_t starts = 0, size;
    // The gates of all frames, which of their variables are wanted, and how many.
    std::vector<Gate> gates;
    std::vector<uint8_t> wanted;
    uint32_t cone = 0;
    std::vector<uint32_t> goals;

    // The literal of the property, if there is such a formula.
    static uint32_t asked(const Circuit& circuit, uint32_t frames, uint32_t property) {
        if (frames == 0) throw Refusal{"cnf: no frames"};
        if (property >= circuit.bad.size()) throw Refusal{"cnf: property"};
        return circuit.bad[property];
    }

    bool is_free(uint32_t place) const { return circuit.latches[place].reset == circuit.latches[place].lit; }

    uint64_t inputs() const { return uint64_t(frames) * part.inputs.size() + starts; }

    // The gates and the goal of each frame.
    void unroll() {
        gates.reserve(frames * size);
        std::vector<uint32_t> now(circuit.max_var + 1, 0), states;
        uint32_t width = uint32_t(part.inputs.size()), start = frames * width, next = uint32_t(inputs()), chain = 1;
        for (uint32_t place : part.latches) states.push_back(is_free(place) ? 2 * ++start : circuit.latches[place].reset);
        auto at = [&](uint32_t literal) { return now[literal >> 1] ^ (literal & 1); };
        auto add = [&](uint32_t a, uint32_t b) {
            gates.push_back({2 * ++next, std::max(a, b), std::min(a, b)});
            return 2 * next;
        };
        for (uint32_t frame = 0; frame < frames; ++frame) {
            for (uint32_t each = 0; each < width; ++each)
                now[circuit.inputs[part.inputs[each]] >> 1] = 2 * (frame * width + each + 1);
            for (uint32_t each = 0; each < states.size(); ++each)
                now[circuit.latches[part.latches[each]].lit >> 1] = states[each];
            for (const Gate& gate : part.gates) now[gate.lhs >> 1] = add(at(gate.rhs0), at(gate.rhs1));
            for (uint32_t constraint : circuit.constraints) chain = add(at(constraint), chain);
            uint32_t bad = at(circuit.bad[property]);
            goals.push_back(guarded ? add(bad, chain) : bad);
            for (uint32_t each = 0; each < states.size(); ++each) states[each] = at(circuit.latches[part.latches[each]].next);
        }
    }

    void find_cone() {
        wanted.assign(variables(), 0);
        for (uint32_t goal : goals) wanted[goal >> 1] = 1;
        for (size_t place = gates.size(); place-- > 0;) {
            const Gate& gate = gates[place];
            if (!wanted[gate.lhs >> 1]) continue;
            wanted[gate.rhs0 >> 1] = wanted[gate.rhs1 >> 1] = 1;
            ++cone;
        }
    }

    // Calls with each gate that is wanted.
    template <class EachGate>
    void each_gate(EachGate each) const {
        for (const Gate& gate : gates)
            if (wanted[gate.lhs >> 1]) each(gate);
    }

    // The lines that say what the inputs of the unrolled circuit are.
    void origins() {
        Names names(circuit);
        uint32_t variable = 2;
        for (uint32_t frame = 0; frame < frames; ++frame)
            for (uint32_t place : part.inputs) put_input(variable++, frame, place, names.of_inputs[place]);
        for (uint32_t place : part.latches)
            if (is_free(place)) put_latch(variable++, place, names.of_latches[place]);
    }
};
