// Event-driven evaluation by levels: what reads a cell that changed waits in a chain of its level, and the chain of the
// lowest level is taken first.
#pragma once

#include "checker.hpp"
#include "simulator.hpp"

#include <vector>

// Who reads each variable, in one pool; a list that is full moves to the pool's end, with twice the room.
class FanOuts {
public:
    template <class EachRead>
    FanOuts(size_t variables, EachRead each_read) : lists(variables) {
        each_read([&](uint32_t variable, uint32_t) { ++lists[variable].room; });
        uint32_t start = 0;
        for (List& list : lists) {
            list.start = start;
            start += list.room;
        }
        pool.resize(start);
        each_read([&](uint32_t variable, uint32_t reader) {
            List& list = lists[variable];
            pool[list.start + list.length++] = reader;
        });
    }

    const uint32_t* begin(uint32_t variable) const { return pool.data() + lists[variable].start; }
    const uint32_t* end(uint32_t variable) const { return begin(variable) + lists[variable].length; }
    void add_variable() { lists.emplace_back(); }

    void add(uint32_t variable, uint32_t reader) {
        List& list = lists[variable];
        if (list.length == list.room) {
            uint32_t start = uint32_t(pool.size());
            list.room = 2 * list.room + 2;
            pool.resize(start + list.room);
            std::copy_n(pool.begin() + list.start, list.length, pool.begin() + start);
            list.start = start;
        }
        pool[list.start + list.length++] = reader;
    }

    void remove(uint32_t variable, uint32_t reader) {
        List& list = lists[variable];
        uint32_t* first = pool.data() + list.start;
        uint32_t* found = std::find(first, first + list.length, reader);
        if (found != first + list.length) *found = first[--list.length];
    }

private:
    struct List {
        uint32_t start = 0, length = 0, room = 0;
    };
    std::vector<List> lists;
    std::vector<uint32_t> pool;
};

class Events {
public:
    explicit Events(const Circuit& circuit)
        : slots(circuit.max_var + 1), readers(circuit.max_var + 1, [&](auto tell) { each_side(circuit, tell); }),
          latches(circuit.max_var + 1, [&](auto tell) { each_next(circuit, tell); }), seen(circuit.max_var + 1) {
        Levels levels(circuit);
        const std::vector<Node>& nodes = levels.by_variable();
        for (size_t variable = 0; variable < nodes.size(); ++variable) {
            const Node& node = nodes[variable];
            bool is_next = latches.begin(variable) != latches.end(variable);
            slots[variable] = {node.rhs0, node.rhs1, alone, node.level, is_next};
            make_level(node.level);
        }
    }

    // How many gates were evaluated.
    uint64_t evaluated = 0;
    // Positions of latches whose state may change at the next frame.
    std::vector<uint32_t> carried;

    // A gate waits.
    void link(uint32_t variable) {
        Slot& slot = slots[variable];
        if (slot.next != alone) return;
        slot.next = heads[slot.level];
        heads[slot.level] = variable;
        occupied[slot.level / 64] |= uint64_t(1) << slot.level % 64;
    }

    void put(Code* cells, uint32_t variable, Code code) {
        if (cells[variable] == code) return;
        cells[variable] = code;
        // The end is found once: what `link` writes could move it, as far as the compiler knows.
        for (const uint32_t *reader = readers.begin(variable), *end = readers.end(variable); reader != end; ++reader)
            link(*reader);
        if (slots[variable].is_next) carried.insert(carried.end(), latches.begin(variable), latches.end(variable));
    }

    // Evaluates what waits, from the lowest level up.
    void settle(Code* cells) {
        for (size_t word = 0; word < occupied.size();) {
            if (occupied[word] == 0) {
                ++word;
                continue;
            }
            size_t level = word * 64 + size_t(__builtin_ctzll(occupied[word]));
            occupied[word] &= occupied[word] - 1;
            uint32_t variable = heads[level];
            heads[level] = 0;
            while (variable != 0) {
                Slot& slot = slots[variable];
                uint32_t next = slot.next;
                slot.next = alone;
                ++evaluated;
                put(cells, variable, both(cells, slot.rhs0, slot.rhs1));
                variable = next;
            }
        }
    }

    // Gives a gate other sides, unless that closes a cycle.
    bool rewire(uint32_t gate, uint32_t rhs0, uint32_t rhs1) {
        if (is_behind(rhs0 >> 1, gate) || is_behind(rhs1 >> 1, gate)) return false;
        Slot& slot = slots[gate];
        readers.remove(slot.rhs0 >> 1, gate);
        if (slot.rhs0 >> 1 != slot.rhs1 >> 1) readers.remove(slot.rhs1 >> 1, gate);
        slot.rhs0 = rhs0;
        slot.rhs1 = rhs1;
        add_sides(gate);
        renew_levels(gate);
        return true;
    }

    void append(uint32_t rhs0, uint32_t rhs1) {
        uint32_t level = 1 + std::max<uint32_t>(slots[rhs0 >> 1].level, slots[rhs1 >> 1].level);
        slots.push_back({rhs0, rhs1, alone, level, false});
        readers.add_variable();
        latches.add_variable();
        seen.push_back(false);
        make_level(level);
        add_sides(uint32_t(slots.size() - 1));
    }

    // The gates by level: a sort by counting.
    Array<Gate> ordered_gates() const {
        std::vector<size_t> places(heads.size() + 1, 0);
        for (const Slot& slot : slots)
            if (slot.level != 0) ++places[slot.level + 1];
        for (size_t level = 1; level < places.size(); ++level) places[level] += places[level - 1];
        size_t count = places.back();
        Array<Gate> made(count);
        for (uint32_t variable = 1; variable < slots.size(); ++variable) {
            const Slot& slot = slots[variable];
            if (slot.level != 0) made[places[slot.level]++] = {2 * variable, slot.rhs0, slot.rhs1};
        }
        made.add(count);
        return made;
    }

private:
    // A gate by its variable: its sides, the next gate of the chain in which it waits, its level (0: no gate), and
    // whether it is the next state of a latch.
    struct Slot {
        uint32_t rhs0, rhs1, next, level : 31, is_next : 1;
    };
    static constexpr uint32_t alone = ~0u;
    std::vector<Slot> slots;
    FanOuts readers, latches;
    // The first gate of each level that waits; 0: none. A bit for each level that has one.
    std::vector<uint32_t> heads;
    std::vector<uint64_t> occupied;
    std::vector<bool> seen;

    template <class Tell>
    static void each_side(const Circuit& circuit, Tell tell) {
        for (const Gate& gate : circuit.gates) {
            tell(gate.rhs0 >> 1, gate.lhs >> 1);
            if (gate.rhs0 >> 1 != gate.rhs1 >> 1) tell(gate.rhs1 >> 1, gate.lhs >> 1);
        }
    }

    template <class Tell>
    static void each_next(const Circuit& circuit, Tell tell) {
        for (uint32_t place = 0; place < circuit.latches.size(); ++place) tell(circuit.latches[place].next >> 1, place);
    }

    void add_sides(uint32_t gate) {
        const Slot& slot = slots[gate];
        readers.add(slot.rhs0 >> 1, gate);
        if (slot.rhs0 >> 1 != slot.rhs1 >> 1) readers.add(slot.rhs1 >> 1, gate);
    }

    void make_level(uint32_t level) {
        if (level < heads.size()) return;
        heads.resize(level + 1, 0);
        occupied.resize(level / 64 + 1, 0);
    }

    // Whether a variable is this gate or reads it, at any distance.
    bool is_behind(uint32_t variable, uint32_t gate) {
        std::vector<uint32_t> pending{variable}, met;
        bool found = false;
        while (!pending.empty() && !found) {
            uint32_t next = pending.back();
            pending.pop_back();
            found = next == gate;
            if (found || slots[next].level <= slots[gate].level || seen[next]) continue;
            seen[next] = true;
            met.push_back(next);
            pending.push_back(slots[next].rhs0 >> 1);
            pending.push_back(slots[next].rhs1 >> 1);
        }
        for (uint32_t each : met) seen[each] = false;
        return found;
    }

    // Gives a gate and what reads it their levels, each once, from the lowest old level up, by the chains of levels.
    void renew_levels(uint32_t gate) {
        link(gate);
        for (size_t word = slots[gate].level / 64; word < occupied.size();) {
            if (occupied[word] == 0) {
                ++word;
                continue;
            }
            size_t level = word * 64 + size_t(__builtin_ctzll(occupied[word]));
            occupied[word] &= occupied[word] - 1;
            uint32_t variable = heads[level];
            heads[level] = 0;
            while (variable != 0) {
                Slot& slot = slots[variable];
                uint32_t next = slot.next;
                slot.next = alone;
                renew_level(variable, slot);
                variable = next;
            }
        }
    }

    // What reads the gate waits if it gets another level; it has a higher one.
    void renew_level(uint32_t variable, Slot& slot) {
        uint32_t level = 1 + std::max<uint32_t>(slots[slot.rhs0 >> 1].level, slots[slot.rhs1 >> 1].level);
        if (slot.level == level) return;
        slot.level = level;
        make_level(level);
        for (const uint32_t *reader = readers.begin(variable), *end = readers.end(variable); reader != end; ++reader)
            link(*reader);
    }
};
