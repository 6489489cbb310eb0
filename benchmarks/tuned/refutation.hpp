// Checks a refutation clause by clause, by unit propagation.
#pragma once

#include "circuit.hpp"

#include <cstdint>
#include <utility>
#include <vector>

// The clauses of a formula, and those that were shown to follow from them. Literals are 2 * variable + sign.
class Refutation {
public:
    explicit Refutation(uint32_t variables)
        : known(2 * size_t(variables), 0), marked(2 * size_t(variables), 0), watches(2 * size_t(variables)) {}

    void add(const std::vector<uint32_t>& literals) {
        if (!refuted) stand(set_of(literals));
    }

    // Adds a clause, if it follows by unit propagation, and answers whether it does.
    bool add_step(const std::vector<uint32_t>& literals) {
        if (refuted) return true;
        if (!follows(literals)) return false;
        add(literals);
        return true;
    }

    // Deletes a clause, if it is among the first of its chain. The literals that it gave stay true.
    void remove(const std::vector<uint32_t>& literals) {
        const std::vector<uint32_t>& clause = set_of(literals);
        uint32_t* link = &chain_of(clause.data(), clause.size());
        for (uint32_t walked = 0; *link && walked < longest_walk; ++walked, link = &words[*link + 1]) {
            uint32_t place = *link, size = words[place];
            if (size != clause.size() || !are_marked(&words[place + before], size)) continue;
            *link = words[place + 1];
            words[place] = deleted;
            --count;
            return;
        }
    }

    bool is_refuted() const { return refuted; }

private:
    // A clause, and a literal of it: while that is true, the clause need not be looked at.
    struct Watch {
        uint32_t clause, blocker;
    };
    // The words of a clause before its literals: their number, the next clause of its chain, and where the last search
    // among them ended.
    static constexpr uint32_t before = 3, deleted = 0xffffffff;
    // A proof can choose clauses of one chain.
    static constexpr uint32_t longest_walk = 1024;

    std::vector<uint32_t> words{0};  // of all clauses; the first two literals of a clause are watched
    std::vector<uint32_t> chains = std::vector<uint32_t>(1024, 0);  // by a hash of the literals
    size_t count = 0;
    std::vector<uint8_t> known;  // by literal: it is true
    std::vector<uint32_t> trail;
    std::vector<uint8_t> marked;  // by literal: it is one of `set`
    std::vector<uint32_t> set;
    std::vector<std::vector<Watch>> watches;  // by literal: the clauses to look at when it becomes false
    bool refuted = false;

    bool is_true(uint32_t literal) const { return known[literal]; }
    bool is_false(uint32_t literal) const { return known[literal ^ 1]; }

    // The literals of a clause, each once and with its mark.
    std::vector<uint32_t>& set_of(const std::vector<uint32_t>& literals) {
        for (uint32_t literal : set) marked[literal] = 0;
        set.clear();
        for (uint32_t literal : literals) {
            if (!marked[literal]) set.push_back(literal);
            marked[literal] = 1;
        }
        return set;
    }

    bool are_marked(const uint32_t* literals, uint32_t size) const {
        for (uint32_t at = 0; at < size; ++at)
            if (!marked[literals[at]]) return false;
        return true;
    }

    bool is_tautology(const std::vector<uint32_t>& clause) const {
        for (uint32_t literal : clause)
            if (marked[literal ^ 1]) return true;
        return false;
    }

    // The chain of a clause, which does not depend on the order of the literals.
    uint32_t& chain_of(const uint32_t* literals, size_t size) {
        uint64_t sum = 0, product = 1;
        for (size_t at = 0; at < size; ++at) {
            uint64_t mixed = literals[at] * 0x9e3779b97f4a7c15;
            mixed ^= mixed >> 29;
            sum += mixed;
            product *= mixed | 1;
        }
        uint64_t hash = sum ^ product;
        return chains[(hash ^ hash >> 32) & (chains.size() - 1)];
    }

    void grow_chains() {
        std::vector<uint32_t> old(2 * chains.size(), 0);
        old.swap(chains);
        for (uint32_t place : old)
            while (place) {
                uint32_t next = words[place + 1];
                uint32_t& chain = chain_of(&words[place + before], words[place]);
                words[place + 1] = chain;
                chain = place;
                place = next;
            }
    }

    // Stores a clause.
    uint32_t store(const std::vector<uint32_t>& clause) {
        if (count == chains.size()) grow_chains();
        uint32_t place = uint32_t(words.size());
        uint32_t& chain = chain_of(clause.data(), clause.size());
        words.push_back(uint32_t(clause.size()));
        words.push_back(chain);
        words.push_back(2);
        words.insert(words.end(), clause.begin(), clause.end());
        chain = place;
        ++count;
        return place;
    }

    // Adds a clause, and takes its only literal that is not false.
    void stand(std::vector<uint32_t>& clause) {
        if (is_tautology(clause)) {
            store(clause);
            return;
        }
        size_t free = 0;
        for (size_t at = 0; at < clause.size() && free < 2; ++at)
            if (!is_false(clause[at])) std::swap(clause[at], clause[free++]);
        if (free == 0) {
            refuted = true;
            return;
        }
        uint32_t place = store(clause);
        if (free == 2) {
            watches[clause[0]].push_back({place, clause[1]});
            watches[clause[1]].push_back({place, clause[0]});
        } else {
            take(clause[0]);
            refuted = has_conflict();
            trail.clear();
        }
    }

    void take(uint32_t literal) {
        if (is_true(literal)) return;
        known[literal] = 1;
        trail.push_back(literal);
    }

    // Whether there is a conflict where the literals are false.
    bool follows(const std::vector<uint32_t>& literals) {
        bool conflict = false;
        for (uint32_t literal : literals) {
            conflict = is_true(literal);
            if (conflict) break;
            take(literal ^ 1);
        }
        conflict = conflict || has_conflict();
        for (uint32_t literal : trail) known[literal] = 0;
        trail.clear();
        return conflict;
    }

    // Takes all that follows from the trail.
    bool has_conflict() {
        for (size_t at = 0; at < trail.size(); ++at)
            if (visit(trail[at] ^ 1)) return true;
        return false;
    }

    // The place of a literal after the first two that is not false, or `size`. It goes on where the last search ended.
    uint32_t search(uint32_t* literals, uint32_t size) const {
        uint32_t& searched = literals[-1];
        uint32_t at = searched;
        while (at < size && is_false(literals[at])) ++at;
        if (at == size) {
            for (at = 2; at < searched && is_false(literals[at]);) ++at;
            if (at == searched) return size;
        }
        return searched = at;
    }

    // Looks at the clauses that watch a literal that became false.
    bool visit(uint32_t lie) {
        std::vector<Watch>& list = watches[lie];
        Watch *from = list.data(), *to = from, *end = from + list.size();
        bool conflict = false;
        while (from != end && !conflict) {
            Watch watch = *from++;
            if (is_true(watch.blocker)) {
                *to++ = watch;
                continue;
            }
            uint32_t size = words[watch.clause];
            if (size == deleted) continue;
            uint32_t* literals = &words[watch.clause + before];
            if (literals[0] == lie) std::swap(literals[0], literals[1]);
            uint32_t other = literals[0];
            if (is_true(other)) {
                *to++ = {watch.clause, other};
                continue;
            }
            uint32_t at = search(literals, size);
            if (at < size) {
                std::swap(literals[1], literals[at]);
                watches[literals[1]].push_back({watch.clause, other});
                continue;
            }
            *to++ = {watch.clause, other};
            conflict = is_false(other);
            if (!conflict) take(other);
        }
        while (from != end) *to++ = *from++;
        list.resize(size_t(to - list.data()));
        return conflict;
    }
};
