// drat2lrat [--trim] F.cnf PROOF OUT
//
// Turns a proof in DRAT, as text or in the binary form, into a proof in LRAT, as text. LRAT names the clauses that each
// step follows from, so `aig refute` looks them up and need not search. Nobody has to trust this program: `aig` checks
// what it writes.
//
// It checks PROOF from its first step on, and records which clauses each step follows from. With --trim it then goes
// back from the empty clause: it leaves out the steps that nothing needs, numbers the others without gaps, and deletes
// each clause after its last use. Without --trim, OUT has a line for each step, and one for each literal that the
// clauses make true by themselves.
//
// It holds the whole proof in memory: 4 bytes for each literal and each hint, and what checking takes.
//
// Exit status: 0 if OUT was written, 1 if PROOF was rejected, 2 for wrong arguments, 3 if a file cannot be read or
// written or memory runs out.
//
//     c++ -O2 -std=c++17 drat2lrat.cpp -o drat2lrat

#include <algorithm>
#include <cerrno>
#include <charconv>
#include <cstdint>
#include <cstdio>
#include <cstring>
#include <iterator>
#include <new>
#include <string>
#include <unordered_map>
#include <utility>
#include <vector>

// Twice a variable, which counts from 0, and one more if it is negated.
using Literal = uint32_t;
using Clause = std::vector<Literal>;
// The number of a clause in LRAT, from 1. 0 means none.
using Number = uint32_t;
// The number of a clause. It is negative if hints for a candidate follow.
using Hint = int32_t;

// The greatest number that a proof may have.
static constexpr int64_t most = 2147483647;
// A proof that begins with d is binary if one of its first bytes, so many of them, is zero.
static constexpr size_t look = 32768;

static Literal negated(Literal literal) { return literal ^ 1; }

// ---- failures

struct Failure {
    int status;
    std::string text;
};

[[noreturn]] static void reject(const std::string& text) { throw Failure{1, text}; }

[[noreturn]] static void fail_at_limit() { throw Failure{3, "more clauses than it can number"}; }

[[noreturn]] static void fail_file(const char* path) { throw Failure{3, std::string(path) + ": " + strerror(errno)}; }

// ---- reading

static std::string contents(const char* path) {
    FILE* file = fopen(path, "rb");
    if (file == nullptr) fail_file(path);
    std::string bytes;
    char block[65536];
    size_t size;
    while ((size = fread(block, 1, sizeof block, file)) > 0) bytes.append(block, size);
    bool is_read = ferror(file) == 0;
    fclose(file);
    if (!is_read) fail_file(path);
    return bytes;
}

// The words of a text. Blanks, tabs and newlines separate them, and lines that begin with c are comments.
class Text {
public:
    Text(std::string text, const char* kind) : bytes(std::move(text)), part(kind) {}

    // The first byte of the next word, or 0 at the end.
    char peek() {
        while (place < bytes.size()) {
            if (is_gap(bytes[place])) ++place;
            else if (bytes[place] == 'c' && begins_line()) skip_line();
            else return bytes[place];
        }
        return 0;
    }

    // Takes a word of one byte.
    void take() {
        ++place;
        if (place < bytes.size() && !is_gap(bytes[place])) fail();
    }

    // Takes a number.
    int64_t number() {
        peek();
        size_t at = place;
        bool is_negative = at < bytes.size() && bytes[at] == '-';
        if (is_negative) ++at;
        size_t first = at;
        int64_t value = 0;
        for (; at < bytes.size() && bytes[at] >= '0' && bytes[at] <= '9'; ++at) {
            value = 10 * value + (bytes[at] - '0');
            if (value > most) fail();
        }
        if (at == first || (at < bytes.size() && !is_gap(bytes[at])) || (is_negative && value == 0)) fail();
        place = at;
        return is_negative ? -value : value;
    }

    // Whether nothing but blanks and tabs is left of the line.
    bool ends_line() const {
        size_t at = place;
        while (at < bytes.size() && (bytes[at] == ' ' || bytes[at] == '\t')) ++at;
        return at == bytes.size() || bytes[at] == '\n';
    }

    void skip_line() {
        while (place < bytes.size() && bytes[place] != '\n') ++place;
    }

    [[noreturn]] void fail() const { reject(std::string(part) + ": text at " + std::to_string(place)); }

private:
    std::string bytes;
    const char* part;
    size_t place = 0;

    static bool is_gap(char byte) { return byte == ' ' || byte == '\t' || byte == '\n'; }
    bool begins_line() const { return place == 0 || bytes[place - 1] == '\n'; }
};

// The numbers of variables. Those over the formula's are the proof's own: they may leave gaps, so they get the next
// free variables, and their own numbers again where they are written.
class Names {
public:
    Literal literal(int64_t number) {
        return 2 * variable(uint32_t(number < 0 ? -number : number)) + (number < 0 ? 1 : 0);
    }

    int64_t number(Literal literal) const {
        uint32_t variable = literal / 2;
        int64_t number = variable < formula ? int64_t(variable) + 1 : int64_t(own[variable - formula]);
        return literal % 2 == 1 ? -number : number;
    }

    uint32_t count() const { return formula + uint32_t(own.size()); }
    uint32_t of_formula() const { return formula; }
    void add_to_formula(uint32_t number) { formula = std::max(formula, number); }

private:
    uint32_t formula = 0;
    std::vector<uint32_t> own;
    std::unordered_map<uint32_t, uint32_t> places;

    uint32_t variable(uint32_t number) {
        if (number <= formula) return number - 1;
        auto [entry, is_new] = places.try_emplace(number, count());
        if (is_new) own.push_back(number);
        return entry->second;
    }
};

// The clauses of a formula in DIMACS, in their order.
static std::vector<Clause> read_formula(const char* path, Names& names) {
    Text text(contents(path), "formula");
    std::vector<Clause> clauses;
    Clause clause;
    bool is_open = false;
    while (char byte = text.peek()) {
        if (byte == 'p') {
            text.skip_line();
            continue;
        }
        int64_t number = text.number();
        is_open = number != 0;
        if (is_open) {
            names.add_to_formula(uint32_t(number < 0 ? -number : number));
            clause.push_back(names.literal(number));
        } else {
            clauses.push_back(clause);
            clause.clear();
        }
    }
    if (is_open) text.fail();
    return clauses;
}

// The steps of a proof in DRAT.
class Steps {
public:
    virtual ~Steps() = default;
    // Reads the next step. It is false at the end.
    virtual bool next() = 0;

    bool is_deletion = false;
    Clause clause;
};

class TextSteps : public Steps {
public:
    TextSteps(std::string bytes, Names& own_names) : text(std::move(bytes), "proof"), names(own_names) {}

    bool next() override {
        char byte = text.peek();
        if (byte == 0) return false;
        is_deletion = byte == 'd';
        if (is_deletion) text.take();
        clause.clear();
        while (int64_t number = text.number()) clause.push_back(names.literal(number));
        // A text in LRAT has more in its first line.
        if (is_first && !text.ends_line()) text.fail();
        is_first = false;
        return true;
    }

private:
    Text text;
    Names& names;
    bool is_first = true;
};

class BinarySteps : public Steps {
public:
    BinarySteps(std::string proof, Names& own_names) : bytes(std::move(proof)), names(own_names) {}

    bool next() override {
        if (place == bytes.size()) return false;
        char letter = bytes[place];
        if (letter != 'a' && letter != 'd') fail();
        ++place;
        is_deletion = letter == 'd';
        clause.clear();
        while (uint64_t value = number()) {
            if (value < 2 || value > 2 * uint64_t(most) + 1) fail();
            int64_t variable = int64_t(value / 2);
            clause.push_back(names.literal(value % 2 == 1 ? -variable : variable));
        }
        return true;
    }

private:
    std::string bytes;
    Names& names;
    size_t place = 0;

    // A number in groups of seven bits, the lowest first. All bytes but the last have the eighth bit. The last group is
    // not zero, unless it is the only one.
    uint64_t number() {
        uint64_t value = 0;
        for (unsigned shift = 0; shift <= 28; shift += 7) {
            if (place == bytes.size()) fail();
            auto byte = static_cast<unsigned char>(bytes[place++]);
            value |= uint64_t(byte & 127) << shift;
            if (byte == 0 && shift > 0) fail();
            if (byte < 128) return value;
        }
        fail();
    }

    [[noreturn]] void fail() const { reject("proof: text at " + std::to_string(place)); }
};

static bool is_binary(const std::string& bytes) {
    if (bytes.empty() || (bytes[0] != 'a' && bytes[0] != 'd')) return false;
    if (bytes[0] == 'a') return true;
    return (bytes.size() > 1 && bytes[1] != ' ' && bytes[1] != '\t') || bytes.find('\0') < look;
}

// ---- the proof that is made

struct Line {
    Number number;
    bool is_on_first;       // it does not follow, and is right on its first literal
    size_t literals, hints;  // where these begin; they end where those of the next line begin
};

// A deletion of PROOF: which clause, and before which line.
struct Deletion {
    size_t line;
    Number number;
};

struct Record {
    std::vector<Line> lines;
    std::vector<Literal> literals;
    std::vector<Hint> hints;
    std::vector<Deletion> deletions;

    void begin_line(Number number, const Clause& clause) {
        lines.push_back({number, false, literals.size(), hints.size()});
        literals.insert(literals.end(), clause.begin(), clause.end());
    }
    size_t literals_end(size_t line) const {
        return line + 1 < lines.size() ? lines[line + 1].literals : literals.size();
    }
    size_t hints_end(size_t line) const { return line + 1 < lines.size() ? lines[line + 1].hints : hints.size(); }
};

// ---- checking

// A clause without the literals that it has twice.
class LiteralSet {
public:
    void resize(size_t literals) { is_marked.resize(literals); }

    void assign(const Clause& clause) {
        for (Literal literal : set) is_marked[literal] = false;
        set.clear();
        for (Literal literal : clause) {
            if (is_marked[literal]) continue;
            is_marked[literal] = true;
            set.push_back(literal);
        }
    }

    const Clause& literals() const { return set; }
    bool has(Literal literal) const { return is_marked[literal]; }

    bool has_both_signs() const {
        return std::any_of(set.begin(), set.end(), [this](Literal literal) { return has(negated(literal)); });
    }

private:
    std::vector<uint8_t> is_marked;
    Clause set;
};

// Where a clause is. 0 means none.
using Place = uint32_t;

// The literals of a clause, until a clause is added.
class Literals {
public:
    Literals(const Literal* begin, const Literal* end) : first(begin), behind(end) {}
    const Literal* begin() const { return first; }
    const Literal* end() const { return behind; }

private:
    const Literal *first, *behind;
};

// All clauses, in one list of words. A clause is some words and then its literals.
class Clauses {
public:
    Place add(const Clause& literals, Number number) {
        if (words.size() + heading + literals.size() > largest) fail_at_limit();
        auto place = Place(words.size());
        words.insert(words.end(), {uint32_t(literals.size()), 0, 0, number});
        words.insert(words.end(), literals.begin(), literals.end());
        if (count == chains.size()) double_chains();
        link(place);
        ++count;
        return place;
    }

    uint32_t size(Place place) const { return words[place]; }
    Literals literals(Place place) const {
        const Literal* first = words.data() + place + heading;
        return {first, first + size(place)};
    }
    // The number of a clause; 0 once it was deleted.
    Number number(Place place) const { return words[place + 3]; }
    // The exclusive or of the two literals that watch for it.
    uint32_t& watching(Place place) { return words[place + 2]; }

    // The place of a clause with exactly these literals, or 0.
    Place find(const LiteralSet& set) const {
        Place place = chains[chain_of(set.literals())];
        while (place != 0 && !is_same(place, set)) place = words[place + 1];
        return place;
    }

    void remove(Place place) {
        uint32_t* link_to = &chains[chain_of(literals(place))];
        while (*link_to != place) link_to = &words[*link_to + 1];
        *link_to = words[place + 1];
        words[place + 3] = 0;
        --count;
    }

    // The places of all clauses, also of those that were deleted, in their order.
    Place first() const { return 1; }
    Place after(Place place) const { return place + heading + size(place); }
    Place last() const { return Place(words.size()); }

private:
    // Its size, the next clause of its chain, what watches for it, and its number.
    static constexpr uint32_t heading = 4;
    static constexpr size_t largest = 0xf0000000;
    std::vector<uint32_t> words = {0};
    // Clauses with equal sums of their literals are in one chain.
    std::vector<Place> chains = std::vector<Place>(1024);
    size_t count = 0;

    template <class List>
    size_t chain_of(const List& literals) const {
        uint64_t sum = 0;
        for (Literal literal : literals) {
            uint64_t mixed = (uint64_t(literal) + 1) * 0x9e3779b97f4a7c15ull;
            sum += mixed ^ mixed >> 29;
        }
        return size_t(sum * 0x9e3779b97f4a7c15ull >> 32) & (chains.size() - 1);
    }

    void link(Place place) {
        Place& chain = chains[chain_of(literals(place))];
        words[place + 1] = chain;
        chain = place;
    }

    void double_chains() {
        std::vector<Place> old(2 * chains.size());
        old.swap(chains);
        for (Place place : old)
            while (place != 0) {
                Place next = words[place + 1];
                link(place);
                place = next;
            }
    }

    bool is_same(Place place, const LiteralSet& set) const {
        Literals own = literals(place);
        return size(place) == set.literals().size()
            && std::all_of(own.begin(), own.end(), [&set](Literal literal) { return set.has(literal); });
    }
};

// A clause that is looked at when a literal becomes false, and another literal of it: if that one is true, the clause
// need not be looked at.
struct Watch {
    Place place;
    Literal other;
};

// Checks the steps of a proof by unit propagation, and records what each follows from. A literal that the clauses make
// true by themselves stays true. The record has a clause of that literal alone, so a hint can name it.
class Checker {
public:
    Checker(Names& all_names, Number of_formula) : last(of_formula), names(all_names) { grow(); }

    // Makes room for the variables of a step.
    void grow() {
        size_t variables = names.count(), literals = 2 * variables;
        if (reasons.size() >= variables && !starts.empty()) return;
        is_true.resize(literals);
        watches.resize(literals);
        units.resize(literals);
        set.resize(literals);
        reasons.resize(variables);
        is_seen.resize(variables);
        // No clause before this place has a new variable.
        starts.resize(variables, variables > names.of_formula() ? clauses.last() : clauses.first());
    }

    // Adds a clause of the formula.
    void add_to_formula(const Clause& clause, Number number) {
        set.assign(clause);
        stand(number);
    }

    // Does a step that adds a clause. It is false if the clause is wrong.
    bool add(const Clause& clause) {
        record.begin_line(last + 1, clause);
        size_t hints = record.hints.size();
        if (!follows(clause)) {
            record.hints.resize(hints);
            if (!is_right_on_first(clause)) return false;
            record.lines.back().is_on_first = true;
        }
        Number number = next_number();
        set.assign(clause);
        refuted = clause.empty();
        if (!refuted) stand(number);
        return true;
    }

    // Does a step that deletes a clause. What the clauses have made true stays true.
    void remove(const Clause& clause) {
        set.assign(clause);
        Place place = clauses.find(set);
        if (place == 0) return;
        Number number = clauses.number(place);
        // Hints still name a clause that makes its only literal true.
        if (clauses.size(place) != 1 || units[*clauses.literals(place).begin()] != number)
            record.deletions.push_back({record.lines.size(), number});
        clauses.remove(place);
    }

    Record record;
    bool refuted = false;
    Number last;  // the number of the last clause

private:
    Names& names;
    Clauses clauses;
    LiteralSet set;
    std::vector<uint8_t> is_true;             // of a literal
    std::vector<std::vector<Watch>> watches;  // of a literal, for when it becomes false
    std::vector<Number> units;                // of a literal that stays true, the clause that has it alone
    std::vector<Place> reasons;               // of a variable, the clause that gave its value
    std::vector<uint8_t> is_seen;             // of a variable
    std::vector<Place> starts;                // of a variable
    std::vector<Literal> trail;               // what is true, in this order, beside what stays true
    Clause resolvent;
    std::vector<Hint> backwards;              // hints of a conflict, the last one first
    std::vector<uint32_t> seen;               // the variables that are marked

    Number next_number() {
        if (last == most) fail_at_limit();
        return ++last;
    }

    void take(Literal literal, Place reason) {
        if (is_true[literal]) return;
        is_true[literal] = true;
        reasons[literal / 2] = reason;
        trail.push_back(literal);
    }

    void undo() {
        for (Literal literal : trail) is_true[literal] = false;
        trail.clear();
    }

    // Takes all that follows. Returns a clause whose literals are all false, if there is one.
    Place propagate() {
        for (size_t at = 0; at < trail.size(); ++at)
            if (Place conflict = look_at_all(negated(trail[at]))) return conflict;
        return 0;
    }

    // Looks at the clauses that a literal watches, which has become false.
    Place look_at_all(Literal lie) {
        std::vector<Watch>& list = watches[lie];
        Place conflict = 0;
        size_t kept = 0, at = 0;
        while (at < list.size() && conflict == 0) {
            Watch watch = list[at++];
            if (!keeps_watch(watch, lie)) continue;
            list[kept++] = watch;
            if (is_true[watch.other]) continue;
            if (is_true[negated(watch.other)]) conflict = watch.place;
            else take(watch.other, watch.place);
        }
        while (at < list.size()) list[kept++] = list[at++];
        list.resize(kept);
        return conflict;
    }

    // Whether a literal that is false goes on watching a clause. If it does, the watch gets the other literal that
    // watches: it is true, or all literals but it are false.
    bool keeps_watch(Watch& watch, Literal lie) {
        if (is_true[watch.other]) return true;
        if (clauses.number(watch.place) == 0) return false;
        Literal other = clauses.watching(watch.place) ^ lie;
        watch.other = other;
        if (is_true[other]) return true;
        auto may_watch = [&](Literal literal) { return literal != other && !is_true[negated(literal)]; };
        Literals literals = clauses.literals(watch.place);
        const Literal* next = std::find_if(literals.begin(), literals.end(), may_watch);
        if (next == literals.end()) return true;
        clauses.watching(watch.place) = other ^ *next;
        watches[*next].push_back({watch.place, other});
        return false;
    }

    // Whether the clause follows; the record gets the hints that show it.
    bool follows(const Clause& clause) {
        bool is_met = false;
        for (Literal literal : clause) {
            is_met = is_true[literal];
            if (is_met) {
                if (units[literal] != 0) record.hints.push_back(Hint(units[literal]));
                break;
            }
            take(negated(literal), 0);
        }
        Place conflict = is_met ? 0 : propagate();
        if (conflict != 0) explain(clause, conflict);
        undo();
        return is_met || conflict != 0;
    }

    // Records the hints of a conflict: literals that stay true, and then the clauses that gave the others, in order. No
    // hint need say that the literals of the clause are false: that is what the step begins with.
    void explain(const Clause& clause, Place conflict) {
        backwards.assign(1, Hint(clauses.number(conflict)));
        seen.clear();
        for (Literal literal : clause)
            if (units[negated(literal)] != 0) see(literal);
        need_others(conflict);
        for (size_t at = trail.size(); at-- > 0;) {
            uint32_t variable = trail[at] / 2;
            if (!is_seen[variable] || reasons[variable] == 0) continue;
            backwards.push_back(Hint(clauses.number(reasons[variable])));
            need_others(reasons[variable]);
        }
        for (uint32_t variable : seen) is_seen[variable] = false;
        record.hints.insert(record.hints.end(), backwards.rbegin(), backwards.rend());
    }

    void see(Literal literal) {
        is_seen[literal / 2] = true;
        seen.push_back(literal / 2);
    }

    // Marks the variables of a clause as needed.
    void need_others(Place place) {
        for (Literal literal : clauses.literals(place)) {
            if (is_seen[literal / 2]) continue;
            see(literal);
            if (Number unit = units[negated(literal)]) record.hints.push_back(Hint(unit));
        }
    }

    // Whether the clause is a resolution asymmetric tautology on its first literal; the record gets a group of hints
    // for each candidate.
    bool is_right_on_first(const Clause& clause) {
        if (clause.empty() || is_true[clause[0]] || is_true[negated(clause[0])]) return false;
        Literal lie = negated(clause[0]);
        for (Place place = starts[lie / 2]; place < clauses.last(); place = clauses.after(place)) {
            Literals literals = clauses.literals(place);
            bool is_candidate = clauses.number(place) != 0
                && std::find(literals.begin(), literals.end(), lie) != literals.end();
            if (!is_candidate) continue;
            resolvent = clause;
            std::remove_copy(literals.begin(), literals.end(), std::back_inserter(resolvent), lie);
            record.hints.push_back(-Hint(clauses.number(place)));
            if (!follows(resolvent)) return false;
        }
        return true;
    }

    // Keeps the clause in `set`, and takes what follows from it.
    void stand(Number number) {
        Place place = clauses.add(set.literals(), number);
        if (set.has_both_signs()) return;
        Literal free[2];
        size_t count = 0;
        for (Literal literal : set.literals()) {
            if (is_true[negated(literal)]) continue;
            free[count++] = literal;
            if (count == 2) break;
        }
        if (count == 2) watch(place, free[0], free[1]);
        else if (count == 1) settle(free[0], place);
        else finish(place);
    }

    void watch(Place place, Literal one, Literal other) {
        clauses.watching(place) = one ^ other;
        watches[one].push_back({place, other});
        watches[other].push_back({place, one});
    }

    // A literal stays true, and all that follows. Each gets a clause of its own.
    void settle(Literal literal, Place reason) {
        take(literal, reason);
        Place conflict = propagate();
        for (Literal each : trail) units[each] = unit_of(each, reasons[each / 2]);
        trail.clear();
        if (conflict != 0) finish(conflict);
    }

    // The number of a clause that has this literal alone: its reason, or a line that is added to the record.
    Number unit_of(Literal literal, Place reason) {
        if (clauses.size(reason) == 1) return clauses.number(reason);
        record.begin_line(last + 1, {literal});
        hint_at(reason);
        return next_number();
    }

    // The empty clause follows from this one, all of whose literals stay false.
    void finish(Place conflict) {
        record.begin_line(last + 1, {});
        hint_at(conflict);
        next_number();
        refuted = true;
    }

    // Records what makes literals of a clause false, and then the clause.
    void hint_at(Place place) {
        for (Literal literal : clauses.literals(place))
            if (Number unit = units[negated(literal)]) record.hints.push_back(Hint(unit));
        record.hints.push_back(Hint(clauses.number(place)));
    }
};

// ---- writing

class Output {
public:
    explicit Output(const char* name) : path(name), file(fopen(name, "wb")) {
        if (file == nullptr) fail_file(path);
    }

    void number(int64_t value) {
        char digits[24];
        char* end = std::to_chars(digits, digits + sizeof digits - 1, value).ptr;
        *end++ = ' ';
        write(digits, size_t(end - digits));
    }
    void text(const char* word) { write(word, strlen(word)); }

    void close() {
        flush();
        if (fclose(file) != 0) fail_file(path);
    }

private:
    const char* path;
    FILE* file;
    std::string block;

    void write(const char* bytes, size_t size) {
        block.append(bytes, size);
        if (block.size() >= 65536) flush();
    }
    void flush() {
        if (fwrite(block.data(), 1, block.size(), file) != block.size()) fail_file(path);
        block.clear();
    }
};

static void write_clause(Output& out, Number number, const Record& record, size_t line, const Names& names) {
    out.number(number);
    for (size_t at = record.lines[line].literals; at < record.literals_end(line); ++at)
        out.number(names.number(record.literals[at]));
    out.text("0 ");
}

// Writes all lines, and the deletions of PROOF between them.
static void write_all(Output& out, const Record& record, const Names& names, Number of_formula) {
    size_t deleted = 0;
    Number before = of_formula;
    for (size_t line = 0; line < record.lines.size(); ++line) {
        auto is_next = [&] { return deleted < record.deletions.size() && record.deletions[deleted].line <= line; };
        if (is_next()) {
            out.number(before);
            out.text("d ");
            while (is_next()) out.number(record.deletions[deleted++].number);
            out.text("0\n");
        }
        before = record.lines[line].number;
        write_clause(out, before, record, line, names);
        for (size_t at = record.lines[line].hints; at < record.hints_end(line); ++at) out.number(record.hints[at]);
        out.text("0\n");
    }
}

// Finds the lines that the empty clause needs, which is the last line, and writes them.
class Trimmer {
public:
    Trimmer(const Record& all, const Names& all_names, Number clauses)
        : record(all), names(all_names), of_formula(clauses), uses(record.lines.back().number + 1),
          is_kept(record.hints.size()) {
        uses[record.lines.back().number] = record.lines.size();
        for (size_t line = record.lines.size(); line-- > 0;)
            if (uses[record.lines[line].number] != 0) need_hints(line);
    }

    void write(Output& out) {
        number_lines();
        size_t deleted = delete_used(out, 0, 0, of_formula);
        for (size_t line = 0; line < record.lines.size(); ++line) {
            Number number = record.lines[line].number;
            if (uses[number] == 0) continue;
            write_clause(out, numbers[number], record, line, names);
            for (size_t at = record.lines[line].hints; at < record.hints_end(line); ++at)
                if (is_kept[at]) out.number(renumbered(record.hints[at]));
            out.text("0\n");
            if (line + 1 < record.lines.size()) deleted = delete_used(out, deleted, line + 1, numbers[number]);
        }
    }

private:
    const Record& record;
    const Names& names;
    Number of_formula;
    std::vector<size_t> uses;      // by number, the last line that needs the clause, counted from 1; 0 if none does
    std::vector<uint8_t> is_kept;  // whether a hint is written
    std::vector<Number> numbers;   // the new numbers of clauses
    std::vector<Number> by_use;    // the clauses by their last uses

    void need(Hint hint, size_t line) {
        size_t& use = uses[size_t(hint)];
        if (use == 0) use = line + 1;
    }

    void need_hints(size_t line) {
        size_t begin = record.lines[line].hints, end = record.hints_end(line);
        if (record.lines[line].is_on_first) {
            while (need_groups(line, begin, end)) continue;
            return;
        }
        for (size_t at = begin; at < end; ++at) keep(at, line);
    }

    void keep(size_t at, size_t line) {
        is_kept[at] = true;
        need(record.hints[at], line);
    }

    // Keeps the groups of the candidates that some line from this one on needs. A group may need further candidates: it
    // is true if there was a new one.
    bool need_groups(size_t line, size_t begin, size_t end) {
        bool is_new = false;
        for (size_t at = begin; at < end;) {
            size_t group = at++;
            while (at < end && record.hints[at] > 0) ++at;
            if (is_kept[group] || uses[size_t(-record.hints[group])] == 0) continue;
            is_new = true;
            is_kept[group] = true;
            for (size_t each = group + 1; each < at; ++each) keep(each, line);
        }
        return is_new;
    }

    void number_lines() {
        numbers.resize(uses.size());
        Number next = 0;
        for (Number number = 1; number < uses.size(); ++number) {
            if (number <= of_formula || uses[number] != 0) numbers[number] = ++next;
            if (numbers[number] != 0) by_use.push_back(number);
        }
        auto is_before = [this](Number one, Number other) { return uses[one] < uses[other]; };
        std::stable_sort(by_use.begin(), by_use.end(), is_before);
    }

    Hint renumbered(Hint hint) const { return hint < 0 ? -Hint(numbers[size_t(-hint)]) : Hint(numbers[size_t(hint)]); }

    // Deletes the clauses, from a place of the list on, that no later line needs. Returns where the others begin.
    size_t delete_used(Output& out, size_t place, size_t line, Number before) {
        auto is_over = [&] { return place < by_use.size() && uses[by_use[place]] <= line; };
        if (!is_over()) return place;
        out.number(before);
        out.text("d ");
        while (is_over()) out.number(numbers[by_use[place++]]);
        out.text("0\n");
        return place;
    }
};

// ---- the command line

static void check(Checker& checker, Steps& steps) {
    for (uint64_t count = 1; !checker.refuted; ++count) {
        if (!steps.next()) reject("proof: no refutation");
        checker.grow();
        if (steps.is_deletion) checker.remove(steps.clause);
        else if (!checker.add(steps.clause)) reject("proof: step " + std::to_string(count));
    }
}

static void translate(bool is_trimmed, const char* formula, const char* proof, const char* to) {
    Names names;
    std::vector<Clause> clauses = read_formula(formula, names);
    std::string bytes = contents(proof);
    if (clauses.size() >= size_t(most)) fail_at_limit();
    auto of_formula = Number(clauses.size());
    Checker checker(names, of_formula);
    for (Number number = 1; number <= of_formula && !checker.refuted; ++number)
        checker.add_to_formula(clauses[number - 1], number);
    std::vector<Clause>().swap(clauses);
    if (is_binary(bytes)) {
        BinarySteps steps(std::move(bytes), names);
        check(checker, steps);
    } else {
        TextSteps steps(std::move(bytes), names);
        check(checker, steps);
    }
    Output out(to);
    if (is_trimmed) Trimmer(checker.record, names, of_formula).write(out);
    else write_all(out, checker.record, names, of_formula);
    out.close();
}

static const char usage[] =
    "usage: drat2lrat [--trim] F.cnf PROOF OUT\n"
    "Turns a proof in DRAT into one in LRAT, as text. --trim leaves out what the refutation does not need.\n";

int main(int count, char** words) {
    std::vector<const char*> files;
    bool is_trimmed = false;
    for (int at = 1; at < count; ++at) {
        std::string word = words[at];
        if (word == "--help") return fputs(usage, stdout) < 0 ? 3 : 0;
        if (word == "--version") return puts("drat2lrat 1") < 0 ? 3 : 0;
        if (word == "--trim") is_trimmed = true;
        else files.push_back(words[at]);
    }
    if (files.size() != 3) {
        fputs(usage, stderr);
        return 2;
    }
    try {
        translate(is_trimmed, files[0], files[1], files[2]);
        return 0;
    } catch (const Failure& failure) {
        fprintf(stderr, "drat2lrat: %s\n", failure.text.c_str());
        return failure.status;
    } catch (const std::bad_alloc&) {
        fputs("drat2lrat: out of memory\n", stderr);
        return 3;
    }
}
