// attack COUNT SEED PROGRAM
//
// Makes random formulas of two to six variables, each with a proof in LRAT, and has PROGRAM check them, which is
// aig_tests. A third of the proofs are right: they have hints that give nothing, gaps in their numbers, groups of
// hints in any order, and variables of their own. The steps of the others are changed, and bytes of some of these.
//
// PROGRAM marks each step. A slow reference has to give the same marks, except where bytes were changed. No proof may
// refute a formula that an assignment satisfies, and each right proof has to refute its formula.
//
// It prints each mistake and then a line of counts. Exit status: 0 if there was none, 1 if there was one, 2 for wrong
// arguments, 3 if PROGRAM or a file failed. It leaves its files in the current folder.
//
//     c++ -O2 -std=c++17 attack.cpp -o attack

#include <algorithm>
#include <cstdint>
#include <cstdio>
#include <cstdlib>
#include <fcntl.h>
#include <fstream>
#include <iterator>
#include <map>
#include <optional>
#include <random>
#include <set>
#include <spawn.h>
#include <string>
#include <sys/wait.h>
#include <utility>
#include <vector>

extern char** environ;

using Clause = std::vector<int>;  // variables, negative if they are negated
using Number = int64_t;
using Hints = std::vector<Number>;

// How PROGRAM marks a step, and how it ends a line.
static constexpr char deleted = 'd', follows = '+', on_first = '*', wrong = '-';
static const std::string refuted = " refuted", open_end = " no refutation";

static constexpr unsigned batch = 4000;  // formulas in one run of PROGRAM
static constexpr unsigned tries = 60;    // tries to add a step to a proof
static constexpr unsigned most_shown = 5;

// ---- chance

static std::mt19937_64 chance;

static unsigned below(size_t bound) { return unsigned(chance() % bound); }
static bool once_in(unsigned times) { return below(times) == 0; }

template <class List>
static auto& any_of(List& list) {
    return list[below(list.size())];
}

template <class Item>
static void shuffle(std::vector<Item>& list) {
    for (size_t size = list.size(); size > 1; --size) std::swap(list[size - 1], list[below(size)]);
}

template <class Item>
static void insert_anywhere(std::vector<Item>& list, Item item) {
    list.insert(list.begin() + below(list.size() + 1), item);
}

template <class Item>
static void erase_any(std::vector<Item>& list) {
    if (!list.empty()) list.erase(list.begin() + below(list.size()));
}

static int any_sign(int variable) { return once_in(2) ? -variable : variable; }

// ---- formulas

struct Formula {
    int variables;
    std::vector<Clause> clauses;
};

static bool is_met(const Clause& clause, unsigned values) {
    return std::any_of(clause.begin(), clause.end(), [values](int literal) {
        return ((values >> (std::abs(literal) - 1)) & 1) == (literal > 0 ? 1u : 0u);
    });
}

static bool is_satisfiable(const Formula& formula) {
    for (unsigned values = 0; values < 1u << formula.variables; ++values) {
        auto meets = [values](const Clause& clause) { return is_met(clause, values); };
        if (std::all_of(formula.clauses.begin(), formula.clauses.end(), meets)) return true;
    }
    return false;
}

static int any_literal(int variables) { return any_sign(1 + int(below(size_t(variables)))); }

static Clause any_clause(int variables, unsigned most) {
    Clause clause;
    for (unsigned left = below(most + 1); left > 0; --left) clause.push_back(any_literal(variables));
    return clause;
}

static Formula any_formula() {
    Formula formula = {2 + int(below(5)), {}};
    for (unsigned left = 1 + below(5 * size_t(formula.variables)); left > 0; --left) {
        Clause clause = any_clause(formula.variables, 3);
        if (clause.empty() && !once_in(60)) clause.push_back(any_literal(formula.variables));
        formula.clauses.push_back(clause);
    }
    return formula;
}

// ---- the reference

struct Step {
    Number number;
    bool is_deletion;
    Clause clause;
    Hints hints;  // of a deletion, the numbers of the clauses
};

// What a step is, by the rules of BEHAVIOUR.md alone.
class Reference {
public:
    explicit Reference(const Formula& formula) {
        for (const Clause& clause : formula.clauses) add(clause);
    }

    bool is_refuted = false;
    std::map<Number, std::set<int>> clauses;
    Number next = 1;  // the least number that the next clause may have

    char done(const Step& step) {
        if (step.is_deletion) {
            for (Number number : step.hints) clauses.erase(number);
            return deleted;
        }
        bool is_over = step.number >= next;
        next = std::max(next, step.number);
        char mark = is_over ? mark_of(step) : wrong;
        if (mark != wrong) add(step.clause);
        return mark;
    }

    // All clauses that propagation finds to give something, in order; nothing if the clause does not follow.
    std::optional<Hints> found(const Clause& clause) const {
        std::set<int> known;
        Hints hints;
        if (!assume_false(known, clause)) return hints;
        for (bool is_more = true; is_more;) {
            is_more = false;
            for (const auto& [number, literals] : clauses) {
                Clause left = left_of(literals, known);
                if (left.size() > 1 || (left.size() == 1 && known.count(left[0]) > 0)) continue;
                hints.push_back(number);
                if (left.empty()) return hints;
                known.insert(left[0]);
                is_more = true;
            }
        }
        return std::nullopt;
    }

    // A clause and the literals of a candidate, but the one that both have with different signs.
    static Clause with_others(const Clause& clause, const std::set<int>& candidate) {
        Clause all = clause;
        std::copy_if(candidate.begin(), candidate.end(), std::back_inserter(all),
                     [&clause](int literal) { return literal != -clause[0]; });
        return all;
    }

private:
    void add(const Clause& clause) {
        if (clause.empty()) is_refuted = true;
        if (!is_refuted) clauses[next++] = std::set<int>(clause.begin(), clause.end());
    }

    char mark_of(const Step& step) const {
        if (is_known(step.clause, step.hints, step.hints.size())) return follows;
        return is_right_on_first(step.clause, step.hints) ? on_first : wrong;
    }

    bool is_right_on_first(const Clause& clause, const Hints& hints) const {
        if (clause.empty()) return false;
        size_t from = 0;
        for (const auto& [number, literals] : clauses) {
            if (literals.count(-clause[0]) == 0) continue;
            size_t group = group_of(number, hints, from);
            if (group < hints.size() + 1) from = group;
            if (!is_known(with_others(clause, literals), hints, std::min(group, hints.size()))) return false;
        }
        return true;
    }

    // Where the hints of a candidate begin. The search goes on from a place, and then from the first hint on.
    static size_t group_of(Number candidate, const Hints& hints, size_t from) {
        for (size_t passed = 0; passed < hints.size(); ++passed) {
            size_t at = (from + passed) % hints.size();
            if (hints[at] == -candidate) return at + 1;
        }
        return hints.size() + 1;
    }

    // Whether a clause follows by the hints before the first negative one, and then by those of a group.
    bool is_known(const Clause& clause, const Hints& hints, size_t group) const {
        std::set<int> known;
        return !assume_false(known, clause) || has_conflict(known, hints, 0) || has_conflict(known, hints, group);
    }

    bool has_conflict(std::set<int>& known, const Hints& hints, size_t from) const {
        for (size_t at = from; at < hints.size() && hints[at] > 0; ++at) {
            auto entry = clauses.find(hints[at]);
            if (entry == clauses.end()) continue;
            Clause left = left_of(entry->second, known);
            if (left.empty()) return true;
            if (left.size() == 1) known.insert(left[0]);
        }
        return false;
    }

    // The literals that are not known to be false.
    static Clause left_of(const std::set<int>& literals, const std::set<int>& known) {
        Clause left;
        std::copy_if(literals.begin(), literals.end(), std::back_inserter(left),
                     [&known](int literal) { return known.count(-literal) == 0; });
        return left;
    }

    // Takes the literals of a clause to be false. It is false if one of them is true.
    static bool assume_false(std::set<int>& known, const Clause& clause) {
        for (int literal : clause) {
            if (known.count(literal) > 0) return false;
            known.insert(-literal);
        }
        return true;
    }
};

// ---- proofs

// Makes the steps of a proof.
class Proof {
public:
    explicit Proof(const Formula& of) : formula(of), reference(of) {
        for (unsigned count = below(4), at = 0; at < count; ++at) {
            int far = once_in(9) ? 2'000'000'000 : 0;
            own.push_back(formula.variables + 1 + int(below(3) + 3 * at) + far);
        }
        if (once_in(2)) std::reverse(own.begin(), own.end());
    }

    std::vector<Step> steps;
    bool refutes() const { return reference.is_refuted; }

    // Adds right steps.
    void make() {
        for (unsigned tried = 0; tried < tries && !reference.is_refuted; ++tried) {
            if (once_in(6)) remove_some();
            else try_to_add(tried > tries / 2 ? 1 : 3);
        }
    }

    // Changes some of the steps, and adds some that are wrong.
    void spoil() {
        if (!steps.empty())
            for (unsigned left = 1 + below(3); left > 0; --left) change(any_of(steps));
        if (once_in(3)) return;
        Number last = reference.next;
        for (unsigned left = 1 + below(4); left > 0; --left) {
            Step step = {last++, false, any_clause(formula.variables, left > 1 ? 1 : 0), {}};
            for (unsigned hints = below(6); hints > 0; --hints) {
                Number hint = 1 + below(size_t(last));
                step.hints.push_back(once_in(5) ? -hint : hint);
            }
            steps.push_back(step);
        }
    }

private:
    const Formula& formula;
    Reference reference;
    std::vector<int> own;  // the names of variables of the proof's own

    Clause any_clause_of_all(unsigned most) {
        Clause clause = any_clause(formula.variables, most);
        if (!own.empty() && once_in(3)) insert_anywhere(clause, any_sign(any_of(own)));
        return clause;
    }

    void remove_some() {
        Step step = {reference.next - 1, true, {}, {}};
        size_t bound = size_t(reference.next) + (once_in(9) ? 3 : 0);
        for (unsigned left = 1 + below(3); left > 0; --left) step.hints.push_back(1 + below(bound));
        reference.done(step);
        steps.push_back(step);
    }

    void try_to_add(unsigned most) {
        Clause clause = once_in(10) ? Clause() : any_clause_of_all(most);
        std::optional<Hints> hints = right_hints(clause);
        if (!hints) return;
        if (once_in(5)) add_useless(*hints);
        Step step = {reference.next + (once_in(6) ? below(5) : 0), false, clause, *hints};
        if (reference.done(step) == wrong) {
            puts("the reference rejects a step that it made");
            exit(1);
        }
        steps.push_back(step);
    }

    // Hints by which a clause is right, if there are any.
    std::optional<Hints> right_hints(const Clause& clause) {
        std::optional<Hints> hints = reference.found(clause);
        if (hints || clause.empty()) return hints;
        std::vector<Hints> groups;
        for (const auto& [number, literals] : reference.clauses) {
            if (literals.count(-clause[0]) == 0) continue;
            std::optional<Hints> group = reference.found(Reference::with_others(clause, literals));
            if (!group) return std::nullopt;
            // a candidate that needs no hints need not be named
            if (group->empty() && once_in(2)) continue;
            group->insert(group->begin(), -number);
            groups.push_back(*group);
        }
        if (once_in(3)) shuffle(groups);
        Hints all;
        for (const Hints& group : groups) all.insert(all.end(), group.begin(), group.end());
        return all;
    }

    // Clauses that are there or not, also before the hints that they would need.
    void add_useless(Hints& hints) {
        for (unsigned left = 1 + below(3); left > 0; --left)
            insert_anywhere(hints, Number(1 + below(size_t(reference.next) + 1)));
    }

    void change(Step& step) {
        switch (below(step.is_deletion ? 2 : 6)) {
            case 0: return erase_any(step.hints);
            case 1: return change_hint(step);
            case 2: return erase_any(step.clause);
            case 3: return change_literal(step.clause);
            case 4: return shuffle(step.hints);
            default: return lengthen(step);
        }
    }

    void change_hint(Step& step) {
        if (step.hints.empty()) return;
        Number hint = 1 + below(size_t(reference.next) + 1);
        any_of(step.hints) = once_in(4) && !step.is_deletion ? -hint : hint;
    }

    void change_literal(Clause& clause) {
        if (clause.empty()) return;
        Clause other = any_clause_of_all(3);
        any_of(clause) = other.empty() ? 1 : other[0];
    }

    void lengthen(Step& step) {
        Clause more = any_clause_of_all(3);
        step.number += below(3);
        step.clause.insert(step.clause.begin(), more.begin(), more.end());
    }
};

// ---- texts

static const char* any_gap(bool is_first_line) {
    switch (below(40)) {
        case 0: return "\t";
        case 1: return is_first_line ? " " : "\n";
        case 2: return "  ";
        case 3: return is_first_line ? " " : "\nc x y 0\n";
        default: return " ";
    }
}

// The text of steps, a line for each, or with other gaps, comments and empty lines.
static std::string spelled(const std::vector<Step>& steps) {
    bool is_plain = once_in(2), is_first = true;
    std::string text;
    if (!is_plain && once_in(10)) text += once_in(2) ? "c hello 0 1\n" : "\n";
    auto add = [&](const std::string& word) { text += word + (is_plain ? " " : any_gap(is_first)); };
    for (const Step& step : steps) {
        add(std::to_string(step.number));
        if (step.is_deletion) add("d");
        for (int literal : step.clause) add(std::to_string(literal));
        if (!step.is_deletion) add("0");
        for (Number hint : step.hints) add(std::to_string(hint));
        text += is_plain || is_first || !once_in(20) ? "0\n" : "0 ";
        is_first = false;
    }
    return text;
}

static void change_bytes(std::string& text) {
    static const std::string bytes = "0123456789- \nd";
    for (unsigned left = 1 + below(3); left > 0 && !text.empty(); --left) {
        size_t at = below(text.size());
        switch (below(3)) {
            case 0: text.erase(at, 1 + below(3)); break;
            case 1: text.insert(at, 1, bytes[below(bytes.size())]); break;
            default: text[at] = bytes[below(bytes.size())];
        }
    }
}

// ---- cases

struct Case {
    std::string formula, proof;
    int variables;
    bool is_satisfiable, is_right;
    std::optional<std::string> wanted;  // the line that PROGRAM has to print, if the reference knows it
};

struct Counts {
    unsigned long long formulas = 0, satisfiable = 0, right = 0, spoiled = 0, of_bytes = 0, no_text = 0, refuted = 0;
    unsigned long long marked[4] = {};
    unsigned long long differences = 0, mistakes = 0;

    void print() const {
        printf("%llu formulas, %llu satisfiable; ", formulas, satisfiable);
        printf("%llu right proofs, %llu changed, %llu of them in bytes; ", right, spoiled, of_bytes);
        printf("%llu refuted, %llu no text; steps: ", refuted, no_text);
        printf("%llu follow, %llu on first literals, ", marked[0], marked[1]);
        printf("%llu deletions, %llu wrong; ", marked[2], marked[3]);
        printf("%llu differences, %llu mistakes\n", differences, mistakes);
    }
};

static void count_marks(Counts& counts, const std::string& line) {
    const char marks[] = {follows, on_first, deleted, wrong};
    auto end = std::find(line.begin(), line.end(), ' ');
    for (size_t at = 0; at < 4; ++at) counts.marked[at] += size_t(std::count(line.begin(), end, marks[at]));
}

// The line of a proof by the reference, which goes on after a step that is wrong, as PROGRAM does.
static std::string line_of(const Formula& formula, const std::vector<Step>& steps) {
    Reference reference(formula);
    std::string marks;
    for (const Step& step : steps) {
        if (reference.is_refuted) break;
        marks += reference.done(step);
    }
    return marks + (reference.is_refuted ? refuted : open_end);
}

static Case any_case(Counts& counts) {
    Formula formula = any_formula();
    Proof proof(formula);
    proof.make();
    // An empty proof without a refutation says nothing.
    bool is_spoiled = !once_in(3) || (proof.steps.empty() && !proof.refutes());
    if (is_spoiled) proof.spoil();
    Case made = {"", spelled(proof.steps), formula.variables, is_satisfiable(formula), false, std::nullopt};
    for (const Clause& clause : formula.clauses) {
        for (int literal : clause) made.formula += std::to_string(literal) + " ";
        made.formula += "0\n";
    }
    bool are_bytes_changed = is_spoiled && once_in(4);
    if (are_bytes_changed) change_bytes(made.proof);
    else made.wanted = line_of(formula, proof.steps);
    made.is_right = !is_spoiled && proof.refutes();
    counts.formulas += 1;
    counts.satisfiable += made.is_satisfiable;
    counts.right += made.is_right;
    counts.spoiled += is_spoiled;
    counts.of_bytes += are_bytes_changed;
    return made;
}

static void judge(const Case& each, const std::string& line, Counts& counts) {
    bool is_refuted = line.size() >= refuted.size() && line.substr(line.size() - refuted.size()) == refuted;
    counts.refuted += is_refuted;
    counts.no_text += line.find("text at") != std::string::npos;
    count_marks(counts, line);
    bool is_mistake = is_refuted ? each.is_satisfiable : each.is_right;
    bool is_difference = each.wanted && line != *each.wanted;
    counts.mistakes += is_mistake;
    counts.differences += is_difference;
    if ((is_mistake || is_difference) && counts.mistakes + counts.differences <= most_shown)
        printf("%s: %s, wanted %s\n%s--\n%s\n", is_mistake ? "MISTAKE" : "DIFFERENCE", line.c_str(),
               each.wanted ? each.wanted->c_str() : "another end", each.formula.c_str(), each.proof.c_str());
}

// ---- the program

[[noreturn]] static void fail(const char* what) {
    fprintf(stderr, "attack: %s\n", what);
    exit(3);
}

static void write_cases(const char* name, const std::vector<Case>& cases) {
    std::ofstream file(name, std::ios::binary);
    for (const Case& each : cases)
        file << each.variables << ' ' << each.formula.size() << ' ' << each.proof.size() << '\n'
             << each.formula << each.proof;
    if (!file.flush()) fail("a file cannot be written");
}

// Runs a program that reads cases with a word.
static void run(const char* program, const char* input, const char* output) {
    posix_spawn_file_actions_t files;
    posix_spawn_file_actions_init(&files);
    posix_spawn_file_actions_addopen(&files, 0, input, O_RDONLY, 0);
    posix_spawn_file_actions_addopen(&files, 1, output, O_WRONLY | O_CREAT | O_TRUNC, 0666);
    std::string name = program;
    std::string word = "steps";
    char* words[] = {name.data(), word.data(), nullptr};
    pid_t process;
    int status = 0;
    if (posix_spawn(&process, program, &files, nullptr, words, environ) != 0) fail("the program does not start");
    posix_spawn_file_actions_destroy(&files);
    if (waitpid(process, &status, 0) != process || status != 0) fail("the program failed");
}

static void judge_all(const char* name, const std::vector<Case>& cases, Counts& counts) {
    std::ifstream file(name);
    std::string line;
    for (const Case& each : cases) {
        if (!std::getline(file, line)) fail("a line is missing");
        judge(each, line, counts);
    }
    if (std::getline(file, line)) fail("there is a line too many");
}

int main(int count, char** words) {
    if (count != 4) {
        fputs("usage: attack COUNT SEED PROGRAM\n", stderr);
        return 2;
    }
    unsigned long long wanted = strtoull(words[1], nullptr, 10);
    chance.seed(strtoull(words[2], nullptr, 10));
    Counts counts;
    while (counts.formulas < wanted) {
        std::vector<Case> cases;
        while (cases.size() < batch && counts.formulas < wanted) cases.push_back(any_case(counts));
        write_cases("attack.cases", cases);
        run(words[3], "attack.cases", "attack.lines");
        judge_all("attack.lines", cases, counts);
    }
    counts.print();
    return counts.differences + counts.mistakes > 0 ? 1 : 0;
}
