// The part of a circuit that a bad literal and the constraints read, through gates in their frame and through latches in
// the frames before.
#pragma once

#include "checker.hpp"
#include "circuit.hpp"

#include <vector>

struct Part {
    // Places in the circuit, and the gates by level and then by variable.
    std::vector<uint32_t> inputs, latches;
    std::vector<Gate> gates;

    Part(const Circuit& circuit, uint32_t bad) {
        std::vector<uint8_t> read = read_by(circuit, bad);
        for (uint32_t place = 0; place < circuit.inputs.size(); ++place)
            if (read[circuit.inputs[place] >> 1]) inputs.push_back(place);
        for (uint32_t place = 0; place < circuit.latches.size(); ++place)
            if (read[circuit.latches[place].lit >> 1]) latches.push_back(place);
        for (const Gate& gate : Levels(circuit).ordered_gates())
            if (read[gate.lhs >> 1]) gates.push_back(gate);
    }

private:
    // For each variable whether it is read.
    static std::vector<uint8_t> read_by(const Circuit& circuit, uint32_t bad) {
        std::vector<uint32_t> gate_of(circuit.max_var + 1, 0), latch_of(circuit.max_var + 1, 0), pending{bad >> 1};
        for (uint32_t place = 0; place < circuit.gates.size(); ++place) gate_of[circuit.gates[place].lhs >> 1] = place + 1;
        for (uint32_t place = 0; place < circuit.latches.size(); ++place)
            latch_of[circuit.latches[place].lit >> 1] = place + 1;
        for (uint32_t constraint : circuit.constraints) pending.push_back(constraint >> 1);
        std::vector<uint8_t> read(circuit.max_var + 1, 0);
        while (!pending.empty()) {
            uint32_t variable = pending.back();
            pending.pop_back();
            if (read[variable]) continue;
            read[variable] = 1;
            if (uint32_t place = gate_of[variable]) {
                pending.push_back(circuit.gates[place - 1].rhs0 >> 1);
                pending.push_back(circuit.gates[place - 1].rhs1 >> 1);
            }
            if (uint32_t place = latch_of[variable]) pending.push_back(circuit.latches[place - 1].next >> 1);
        }
        return read;
    }
};
