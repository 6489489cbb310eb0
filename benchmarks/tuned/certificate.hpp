// A circuit that is strengthened by a certificate, as `aig strengthen` has it, and the formula that its property is
// inductive, with the comment lines of `aig cnf --certificate`.
#pragma once

#include "checker.hpp"
#include "circuit.hpp"
#include "formula.hpp"

#include <algorithm>
#include <string_view>
#include <vector>

// The model with the own inputs and latches of a certificate, all its gates, and one bad literal: the model's property is
// 1, or a claim of the certificate is broken. Without outputs, and with names of inputs and latches alone.
class Strengthened {
public:
    Strengthened(Circuit&& model, uint32_t property, const Circuit& certificate)
        : circuit(std::move(model)), certificate(certificate), to(certificate.max_var + 1, 0) {
        find_meanings();
        if (property >= circuit.bad.size()) throw Refusal{"cnf: property"};
        add_sources();
        for (const Gate& gate : certificate.gates) to[gate.lhs >> 1] = fresh();
        for (const Gate& gate : certificate.gates) circuit.gates.push({at(gate.lhs), at(gate.rhs0), at(gate.rhs1)});
        for (size_t place = 0; place < own_latches.size(); ++place)
            circuit.latches[circuit.latches.size() - own_latches.size() + place].next = at(own_latches[place]);
        add_property(circuit.bad[property]);
        circuit.is_ascending = Shape(circuit).is_ascending;
        for (size_t count : {size_t(circuit.max_var), circuit.inputs.size(), circuit.latches.size(), parts})
            if (count > 4194303) throw Refusal{"cnf: limit"};
    }

    Circuit circuit;

private:
    static constexpr uint32_t own = ~0u;

    const Circuit& certificate;
    // What the certificate's variables are, and what its inputs and latches stand for.
    std::vector<uint32_t> to, of_inputs, of_latches;
    // The next states of the own latches.
    std::vector<uint32_t> own_latches;
    size_t parts = 1;

    uint32_t fresh() { return 2 * ++circuit.max_var; }
    uint32_t at(uint32_t literal) const { return to[literal >> 1] ^ (literal & 1); }

    static bool is_marked(std::string_view name) { return name.substr(0, 2) == "= "; }

    void find_meanings() {
        Names names(certificate);
        auto some = [](const std::vector<std::string_view>& list) { return std::any_of(list.begin(), list.end(), is_marked); };
        of_inputs.assign(certificate.inputs.size(), own);
        of_latches.assign(certificate.latches.size(), own);
        if (some(names.of_inputs) || some(names.of_latches)) {
            std::vector<uint8_t> defined = definitions();
            for (size_t place = 0; place < of_inputs.size(); ++place)
                of_inputs[place] = named(defined, 'i', place, names.of_inputs[place]);
            for (size_t place = 0; place < of_latches.size(); ++place)
                of_latches[place] = named(defined, 'l', place, names.of_latches[place]);
            return;
        }
        if (certificate.comment.size() >= 7 && std::string_view(certificate.comment.begin(), 7) == "MAPPING")
            throw Refusal{"certificate: comment"};
        for (size_t place = 0; place < std::min(of_inputs.size(), circuit.inputs.size()); ++place)
            of_inputs[place] = circuit.inputs[place];
        for (size_t place = 0; place < std::min(of_latches.size(), circuit.latches.size()); ++place)
            of_latches[place] = circuit.latches[place].lit;
    }

    std::vector<uint8_t> definitions() const {
        std::vector<uint8_t> defined(circuit.max_var + 1, 0);
        defined[0] = 1;
        for (uint32_t input : circuit.inputs) defined[input >> 1] = 1;
        for (const Latch& latch : circuit.latches) defined[latch.lit >> 1] = 1;
        for (const Gate& gate : circuit.gates) defined[gate.lhs >> 1] = 1;
        return defined;
    }

    // The literal that a name names.
    static uint32_t named(const std::vector<uint8_t>& defined, char kind, size_t place, std::string_view name) {
        if (!is_marked(name)) return own;
        uint64_t literal = 0;
        std::string_view word = name.substr(2);
        bool is_number = !word.empty() && (word.size() == 1 || word[0] != '0');
        for (char digit : word) {
            is_number &= digit >= '0' && digit <= '9';
            literal = std::min<uint64_t>(10 * literal + uint64_t(digit - '0'), 1u << 30);
        }
        if (!is_number || literal >> 1 >= defined.size() || !defined[literal >> 1])
            throw Refusal{std::string("certificate: symbol ") + kind + std::to_string(place)};
        return uint32_t(literal);
    }

    void add_sources() {
        Names names(certificate);
        for (size_t place = 0; place < of_inputs.size(); ++place) {
            bool is_own = of_inputs[place] == own;
            uint32_t literal = to[certificate.inputs[place] >> 1] = is_own ? fresh() : of_inputs[place];
            if (!is_own) continue;
            add_name('i', circuit.inputs.size(), names.of_inputs[place]);
            circuit.inputs.push(literal);
        }
        for (size_t place = 0; place < of_latches.size(); ++place) {
            const Latch& latch = certificate.latches[place];
            bool is_own = of_latches[place] == own;
            uint32_t literal = to[latch.lit >> 1] = is_own ? fresh() : of_latches[place];
            if (!is_own) continue;
            add_name('l', circuit.latches.size(), names.of_latches[place]);
            circuit.latches.push({literal, 0, latch.reset == latch.lit ? literal : latch.reset});
            own_latches.push_back(latch.next);
        }
    }

    // Names are in one text, so those of new entries come last.
    void add_name(char kind, size_t position, std::string_view name) {
        if (name.empty()) return;
        circuit.symbols.push({uint32_t(position), uint32_t(name.size()), kind});
        for (char byte : name) circuit.names.push(byte);
    }

    void add_property(uint32_t bad) {
        uint32_t good = bad ^ 1;
        auto add = [&](uint32_t claim) {
            uint32_t lhs = fresh();
            circuit.gates.push({lhs, std::max(claim ^ 1, good), std::min(claim ^ 1, good)});
            good = lhs;
            ++parts;
        };
        for (uint32_t claim : certificate.bad.size() ? certificate.bad : certificate.outputs) add(at(claim));
        for (uint32_t constraint : certificate.constraints) add(at(constraint) ^ 1);
        circuit.bad = Array<uint32_t>();
        circuit.bad.push(good ^ 1);
    }
};

// The formula that a start or a step reaches the bad literal of a circuit: of two frames from any state, the gates that its
// bad literals depend on.
class Induction : Dimacs {
public:
    Induction(const Circuit& circuit, Output& out) : Dimacs(out), circuit(circuit), part(circuit, circuit.bad[0]) {
        uint64_t constraints = circuit.constraints.size(), guards = constraints > 0 ? constraints + 1 : 0;
        uint64_t sources = 2 * uint64_t(part.inputs.size()) + part.latches.size();
        if (sources + 2 * (part.gates.size() + guards) > 4194303) throw Refusal{"cnf: limit"};
        variables = uint32_t(sources);
        gates = Array<Gate>(2 * (part.gates.size() + guards));
        unroll();
        find_cone();
    }

    // The property is the model's, with its name there.
    void write(uint32_t property, std::string_view name) {
        put_heading("--certificate ", property, name);
        put_comments();
        uint32_t variable = 2 * uint32_t(part.inputs.size()), resets = 0;
        for (uint32_t place : part.latches) resets += circuit.latches[place].reset != circuit.latches[place].lit;
        put_head(variables + 1, 2 + resets + 3 * cone);
        clause({1});
        clause({goals[0], goals[1]});
        for (uint32_t place : part.latches) {
            const Latch& latch = circuit.latches[place];
            ++variable;
            if (latch.reset != latch.lit) clause({goals[0] ^ 1, 2 * variable + (latch.reset == 0)});
        }
        for (const Gate& gate : gates)
            if (wanted[gate.lhs >> 1]) put_gate(gate.lhs, gate.rhs0, gate.rhs1);
    }

private:
    const Circuit& circuit;
    Part part;
    uint32_t variables, goals[2], cone = 0;
    Array<Gate> gates;
    std::vector<uint8_t> wanted;

    uint32_t add(uint32_t a, uint32_t b) {
        gates.push({2 * ++variables, std::max(a, b), std::min(a, b)});
        return 2 * variables;
    }

    void unroll() {
        uint32_t width = uint32_t(part.inputs.size()), chain = 1;
        std::vector<uint32_t> now(circuit.max_var + 1, 0), states;
        for (uint32_t each = 0; each < part.latches.size(); ++each) states.push_back(2 * (2 * width + each + 1));
        auto at = [&](uint32_t literal) { return now[literal >> 1] ^ (literal & 1); };
        for (uint32_t frame = 0; frame < 2; ++frame) {
            for (uint32_t each = 0; each < width; ++each)
                now[circuit.inputs[part.inputs[each]] >> 1] = 2 * (frame * width + each + 1);
            for (uint32_t each = 0; each < states.size(); ++each)
                now[circuit.latches[part.latches[each]].lit >> 1] = states[each];
            for (const Gate& gate : part.gates) now[gate.lhs >> 1] = add(at(gate.rhs0), at(gate.rhs1));
            for (uint32_t constraint : circuit.constraints) chain = add(at(constraint), chain);
            goals[frame] = at(circuit.bad[0]);
            if (circuit.constraints.size() > 0) goals[frame] = add(goals[frame], chain);
            for (uint32_t each = 0; each < states.size(); ++each) states[each] = at(circuit.latches[part.latches[each]].next);
        }
    }

    void find_cone() {
        wanted.assign(variables + 1, 0);
        wanted[goals[0] >> 1] = wanted[goals[1] >> 1] = 1;
        for (size_t place = gates.size(); place-- > 0;) {
            const Gate& gate = gates[place];
            if (!wanted[gate.lhs >> 1]) continue;
            wanted[gate.rhs0 >> 1] = wanted[gate.rhs1 >> 1] = 1;
            ++cone;
        }
    }

    void put_comments() {
        Names names(circuit);
        uint32_t variable = 2;
        for (uint32_t frame = 0; frame < 2; ++frame)
            for (uint32_t place : part.inputs) put_input(variable++, frame, place, names.of_inputs[place]);
        for (uint32_t place : part.latches) put_latch(variable++, place, names.of_latches[place]);
        for (uint32_t frame = 0; frame < 2; ++frame) put_goal(goals[frame], frame);
    }
};
