// A tuned AIGER converter, simulator, workbench and checker of proofs, which `aig` is measured against: the same checks, the
// same bytes.

#include "certificate.hpp"
#include "checker.hpp"
#include "formula.hpp"
#include "live.hpp"
#include "proof.hpp"
#include "reader.hpp"
#include "refutation.hpp"
#include "simulator.hpp"
#include "workbench.hpp"
#include "writer.hpp"

#include <cstdio>
#include <cstdlib>
#include <cstring>
#include <string_view>

static const char usage[] =
    "usage: tuned toaag CIRCUIT | toaig CIRCUIT | sim CIRCUIT STIM | bench CIRCUIT STIM SCRIPT\n"
    "       tuned cnf FRAMES PROPERTY CIRCUIT | refute FRAMES PROPERTY CIRCUIT PROOF\n"
    "       tuned induction PROPERTY CERTIFICATE CIRCUIT\n"
    "       tuned touched CIRCUIT STIM SCRIPT       tells on standard error too how many gates the edits evaluate\n";

static Circuit read_circuit(Source& source) {
    Circuit circuit = Reader(source).read();
    check(circuit);
    return circuit;
}

static void convert(const char* word, const char* path, Output& out) {
    Source source(path, "circuit");
    Circuit circuit = read_circuit(source);
    if (strcmp(word, "toaig") == 0) return Writer(circuit, out).write_binary();
    check_cycles(circuit);
    Writer(circuit, out).write_ascii();
}

static uint32_t number_of(const char* word) { return uint32_t(strtoul(word, nullptr, 10)); }

static void formula(char** words, Output& out) {
    Source source(words[2], "circuit");
    Circuit circuit = read_circuit(source);
    check_cycles(circuit);
    Formula(circuit, number_of(words[0]), number_of(words[1]), out).write();
}

// A fault of the certificate is told by its part.
static Circuit read_certificate(Source& source) {
    try {
        Circuit certificate = read_circuit(source);
        check_cycles(certificate);
        return certificate;
    } catch (Refusal& refusal) {
        constexpr std::string_view part = "circuit";
        if (refusal.text.compare(0, part.size(), part) == 0) refusal.text.replace(0, part.size(), "certificate");
        throw;
    }
}

static void induction(char** words, Output& out) {
    Source model_source(words[2], "circuit"), source(words[1], "certificate");
    Circuit model = read_circuit(model_source);
    check_cycles(model);
    Circuit certificate = read_certificate(source);
    uint32_t property = number_of(words[0]);
    std::string name(property < model.bad.size() ? Names(model).of_bad[property] : "");
    Strengthened made(std::move(model), property, certificate);
    Induction(made.circuit, out).write(property, name);
}

static void refute_by(Proof& proof, Refutation& refutation) {
    for (uint64_t step = 1; !refutation.is_refuted(); ++step) {
        if (!proof.next()) throw Refusal{"proof: no refutation"};
        if (proof.deletes)
            refutation.remove(proof.clause);
        else if (!refutation.add_step(proof.clause))
            throw Refusal{"proof: step " + std::to_string(step)};
    }
}

static void refute(char** words, Output& out) {
    Source source(words[2], "circuit"), proof_source(words[3], "proof");
    Circuit circuit = read_circuit(source);
    check_cycles(circuit);
    Formula formula(circuit, number_of(words[0]), number_of(words[1]), out);
    Refutation refutation(formula.variables());
    formula.each_clause([&](const std::vector<uint32_t>& clause) { refutation.add(clause); });
    Proof proof(proof_source, formula.variables());
    refute_by(proof, refutation);
    std::string answer = "unreachable within " + std::string(words[0]) + "\n";
    out.put(answer.data(), answer.size());
}

static void simulate(char** paths, Output& out) {
    out.part = "stimulus";
    Source circuit(paths[0], "circuit"), stimulus(paths[1], "stimulus");
    Simulator(read_circuit(circuit), out).run(stimulus);
}

static void bench(const char* word, char** paths, Output& out) {
    out.part = "script";
    Source circuit(paths[0], "circuit"), stimulus(paths[1], "stimulus"), script(paths[2], "script");
    Circuit whole = read_circuit(circuit);
    Array<char> rows(stimulus.size() + Source::block);
    stimulus.take_rest(rows);
    Workbench workbench(std::move(whole), rows, out);
    if (strcmp(word, "live") == 0) return time_calls(workbench, paths[2]);
    workbench.run(script);
    if (strcmp(word, "touched") == 0)
        fprintf(stderr, "%llu\n", static_cast<unsigned long long>(workbench.evaluated()));
}

static void run(int count, char** words, Output& out) {
    const char* word = count > 1 ? words[1] : "";
    if (count == 3 && (strcmp(word, "toaag") == 0 || strcmp(word, "toaig") == 0))
        convert(word, words[2], out);
    else if (count == 5 && strcmp(word, "cnf") == 0)
        formula(words + 2, out);
    else if (count == 5 && strcmp(word, "induction") == 0)
        induction(words + 2, out);
    else if (count == 6 && strcmp(word, "refute") == 0)
        refute(words + 2, out);
    else if (count == 4 && strcmp(word, "sim") == 0)
        simulate(words + 2, out);
    else if (count == 5 && (strcmp(word, "bench") == 0 || strcmp(word, "touched") == 0 || strcmp(word, "live") == 0))
        bench(word, words + 2, out);
    else
        throw Refusal{"usage", 2};
}

int main(int count, char** words) {
    static Output out;
    int status = 0;
    try {
        try {
            run(count, words, out);
        } catch (...) {
            out.flush();
            throw;
        }
        out.flush();
    } catch (const Refusal& refusal) {
        if (refusal.status == 2)
            fputs(usage, stderr);
        else
            fprintf(stderr, "aig: %s\n", refusal.text.c_str());
        status = refusal.status;
    }
    return status;
}
