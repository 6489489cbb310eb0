// lrat_check [--strict] F.cnf PROOF
//
// A plain checker of proofs in LRAT, as text. It shares no code with `aig`, drat2lrat and attack, so tests ask it for a
// second opinion, and measurements compare `aig refute` with it.
//
// It passes over a hint that gives nothing, as `aig refute` does. With --strict it rejects the step of such a hint, as
// other checkers do.
//
// It prints one line: `refuted`, `step N`, `text` or `no refutation`. Exit status: 0 for `refuted`, 1 if the proof was
// rejected, 2 for wrong arguments, 3 if a file cannot be read.
//
//     c++ -O2 -std=c++17 lrat_check.cpp -o lrat_check

#include <algorithm>
#include <cstdint>
#include <cstdio>
#include <cstdlib>
#include <cstring>
#include <unordered_map>
#include <vector>

// A variable, from 1, which is negative if it is negated.
using Literal = int32_t;
using Number = int64_t;

// Thrown where the bytes of a file are no numbers.
struct NoText {};

// The words of a file.
class Words {
public:
    explicit Words(const char* path) : file(fopen(path, "rb")) {
        if (file != nullptr) return;
        perror(path);
        exit(3);
    }
    ~Words() { fclose(file); }
    Words(const Words&) = delete;
    Words& operator=(const Words&) = delete;

    // The first byte of the next word, or -1 at the end. Lines that begin with c are comments.
    int peek() {
        for (;;) {
            int byte = next();
            if (byte == 'c' && is_line_start) {
                skip_line();
                continue;
            }
            if (!is_gap(byte)) return byte;
            is_line_start = byte == '\n';
            ++place;
        }
    }

    // Takes a word of one byte.
    void take() {
        ++place;
        if (next() >= 0 && !is_gap(next())) throw NoText();
        is_line_start = false;
    }

    void skip_line() {
        while (next() >= 0 && next() != '\n') ++place;
    }

    Number number() {
        bool is_negative = peek() == '-';
        if (is_negative) ++place;
        if (!is_digit(next())) throw NoText();
        Number value = 0;
        for (; is_digit(next()); ++place) {
            value = 10 * value + (next() - '0');
            if (value > INT32_MAX) throw NoText();
        }
        if (next() >= 0 && !is_gap(next())) throw NoText();
        is_line_start = false;
        return is_negative ? -value : value;
    }

    // The numbers up to a 0.
    template <class Item>
    void list(std::vector<Item>& numbers) {
        numbers.clear();
        while (Number value = number()) numbers.push_back(Item(value));
    }

private:
    FILE* file;
    char block[65536];
    size_t place = 0, size = 0;
    bool is_line_start = true;

    static bool is_gap(int byte) { return byte == ' ' || byte == '\t' || byte == '\n'; }
    static bool is_digit(int byte) { return byte >= '0' && byte <= '9'; }

    int next() {
        if (place == size) {
            place = 0;
            size = fread(block, 1, sizeof block, file);
            if (size == 0) return -1;
        }
        return static_cast<unsigned char>(block[place]);
    }
};

class Checker {
public:
    explicit Checker(bool strict) : is_strict(strict) {}

    bool refuted = false;
    Number last() const { return numbers.empty() ? 0 : numbers.back(); }

    // Adds the next clause of the formula.
    void add_to_formula(const std::vector<Literal>& spelled) {
        for (Literal literal : spelled) of_formula = std::max(of_formula, std::abs(literal));
        add(last() + 1, spelled);
    }

    void add(Number number, const std::vector<Literal>& spelled) {
        name(spelled);
        refuted = refuted || clause.empty();
        for (Literal literal : clause) {
            size_t& first = first_indices[size_t(std::abs(literal))];
            first = std::min(first, numbers.size());
        }
        numbers.push_back(number);
        begins.push_back(int64_t(literals.size()));
        literals.insert(literals.end(), clause.begin(), clause.end());
        literals.push_back(0);
    }

    void remove(Number number) {
        size_t index = index_of(number);
        if (index == none) return;
        for (const Literal* literal = clause_at(index); *literal != 0; ++literal) ++dead;
        ++dead;
        begins[index] = -1;
        if (dead > literals.size() / 2 && dead > 1'000'000) pack();
    }

    // Whether the clause follows by these hints, or is right on its first literal.
    bool is_right(const std::vector<Literal>& spelled, const std::vector<Number>& hints) {
        name(spelled);
        bool is_met = !assume_false(clause.data(), clause.data() + clause.size(), 0);
        End end = is_met ? End::Conflict : walk(hints, 0);
        bool is_right = end == End::Conflict || (end == End::Open && !clause.empty() && is_right_on_first(hints));
        undo(0);
        return is_right;
    }

private:
    // How hints end: the step follows, or it does not, or a strict checker rejects it for a hint that gives nothing.
    enum class End { Conflict, Open, Rejected };
    static constexpr size_t none = SIZE_MAX;
    bool is_strict;
    // Clauses by their numbers, which ascend: where the literals of each begin, up to a 0; or -1 if it was deleted.
    std::vector<Number> numbers;
    std::vector<int64_t> begins;
    std::vector<Literal> literals;
    size_t dead = 0;  // words of deleted clauses
    // The variables of the formula keep their numbers. Those of the proof's own get the next ones.
    Literal of_formula = 0;
    std::unordered_map<Literal, Literal> own;
    std::vector<size_t> first_indices;  // of a variable, the first clause that has it
    std::vector<uint8_t> values;        // whether a literal is true
    std::vector<Literal> trail;         // the literals that are true
    std::vector<Literal> clause;        // the clause of the step

    // Takes the literals of a clause as `clause`.
    void name(const std::vector<Literal>& spelled) {
        clause.clear();
        for (Literal literal : spelled) {
            Literal variable = std::abs(literal);
            if (variable > of_formula)
                variable = own.try_emplace(variable, of_formula + Literal(own.size()) + 1).first->second;
            clause.push_back(literal < 0 ? -variable : variable);
        }
        size_t variables = size_t(of_formula) + own.size() + 1;
        if (first_indices.size() >= variables) return;
        first_indices.resize(variables, none);
        values.resize(2 * variables);
    }

    uint8_t& value(Literal literal) { return values[2 * size_t(std::abs(literal)) + (literal < 0 ? 1 : 0)]; }
    const Literal* clause_at(size_t index) const { return &literals[size_t(begins[index])]; }

    size_t index_of(Number number) const {
        size_t index = size_t(number) - 1;
        if (last() != Number(numbers.size()))
            index = size_t(std::lower_bound(numbers.begin(), numbers.end(), number) - numbers.begin());
        bool is_there = index < numbers.size() && numbers[index] == number && begins[index] >= 0;
        return is_there ? index : none;
    }

    void pack() {
        size_t to = 0;
        for (int64_t& begin : begins) {
            if (begin < 0) continue;
            size_t from = size_t(begin);
            begin = int64_t(to);
            do literals[to++] = literals[from];
            while (literals[from++] != 0);
        }
        literals.resize(to);
        literals.shrink_to_fit();
        dead = 0;
    }

    void take(Literal literal) {
        if (value(literal)) return;
        value(literal) = 1;
        trail.push_back(literal);
    }

    void undo(size_t size) {
        for (; trail.size() > size; trail.pop_back()) value(trail.back()) = 0;
    }

    // Takes literals to be false, but one of them. It is false if one of the others is true.
    bool assume_false(const Literal* begin, const Literal* end, Literal but) {
        for (const Literal* literal = begin; literal != end; ++literal) {
            if (*literal == but) continue;
            if (value(*literal)) return false;
            take(-*literal);
        }
        return true;
    }

    // Looks at the clause of a hint. It is `Rejected` if the clause gives nothing.
    End look_at(Number hint) {
        size_t index = index_of(hint);
        if (index == none) return End::Rejected;
        Literal unit = 0;
        for (const Literal* literal = clause_at(index); *literal != 0; ++literal) {
            if (value(-*literal)) continue;
            if (unit != 0 && unit != *literal) return End::Rejected;
            unit = *literal;
        }
        if (unit == 0) return End::Conflict;
        if (value(unit)) return End::Rejected;
        take(unit);
        return End::Open;
    }

    // Looks at hints from a place on, up to a negative one.
    End walk(const std::vector<Number>& hints, size_t from) {
        for (size_t at = from; at < hints.size() && hints[at] > 0; ++at) {
            End end = look_at(hints[at]);
            if (end == End::Conflict || (end == End::Rejected && is_strict)) return end;
        }
        return End::Open;
    }

    // Whether the clause, whose literals are false now, is a resolution asymmetric tautology on its first literal.
    bool is_right_on_first(const std::vector<Number>& hints) {
        std::unordered_map<Number, size_t> groups;
        for (size_t at = 0; at < hints.size(); ++at)
            if (hints[at] < 0) groups[-hints[at]] = at + 1;
        for (size_t index = first_indices[size_t(std::abs(clause[0]))]; index < numbers.size(); ++index)
            if (begins[index] >= 0 && !settles(index, hints, groups)) return false;
        return true;
    }

    // Whether a clause has no negation of the first literal, or all its other literals follow by its group of hints.
    bool settles(size_t index, const std::vector<Number>& hints, const std::unordered_map<Number, size_t>& groups) {
        const Literal *begin = clause_at(index), *end = begin, lie = -clause[0];
        while (*end != 0) ++end;
        if (std::find(begin, end, lie) == end) return true;
        size_t before = trail.size();
        bool is_met = !assume_false(begin, end, lie);
        auto group = groups.find(numbers[index]);
        bool is_settled = is_met || (group != groups.end() && walk(hints, group->second) == End::Conflict);
        undo(before);
        return is_settled;
    }
};

static void read_formula(const char* path, Checker& checker) {
    Words words(path);
    std::vector<Literal> clause;
    for (int byte = words.peek(); byte >= 0; byte = words.peek()) {
        if (byte == 'p') {
            words.skip_line();
            continue;
        }
        words.list(clause);
        checker.add_to_formula(clause);
    }
}

static int answer(const char* line, int status) {
    puts(line);
    return status;
}

static int check(const char* path, Checker& checker) {
    Words words(path);
    std::vector<Literal> clause;
    std::vector<Number> hints;
    for (uint64_t step = 1; !checker.refuted; ++step) {
        if (words.peek() < 0) return answer("no refutation", 1);
        Number number = words.number();
        if (words.peek() == 'd') {
            words.take();
            words.list(hints);
            for (Number each : hints) checker.remove(each);
            continue;
        }
        words.list(clause);
        words.list(hints);
        if (number <= checker.last() || !checker.is_right(clause, hints)) {
            printf("step %llu\n", static_cast<unsigned long long>(step));
            return 1;
        }
        checker.add(number, clause);
    }
    return answer("refuted", 0);
}

int main(int count, char** words) {
    bool is_strict = count > 1 && strcmp(words[1], "--strict") == 0;
    if (count != (is_strict ? 4 : 3)) {
        fputs("usage: lrat_check [--strict] F.cnf PROOF\n", stderr);
        return 2;
    }
    Checker checker(is_strict);
    try {
        read_formula(words[count - 2], checker);
        return check(words[count - 1], checker);
    } catch (const NoText&) {
        return answer("text", 1);
    }
}
