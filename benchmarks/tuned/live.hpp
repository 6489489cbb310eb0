// Times the lines `s`, `w`, `g`, `-`, `+` and `v` of a script as calls of the workbench: first all edits are done, then
// all questions asked. It prints the nanoseconds of processor time of each, as benchmarks/live.c does.
#pragma once

#include "workbench.hpp"

#include <cstdio>
#include <cstdlib>
#include <cstring>
#include <ctime>
#include <string>

// The letter of its line, and its numbers; the value of a line `s` is the third.
struct Edit { char letter; uint32_t a, b, c; };
struct Cell { uint32_t frame, literal; };

static void want(bool is_so) {
    if (!is_so) abort();
}

static void read_script(const char* name, std::vector<Edit>& edits, std::vector<Cell>& cells, std::string& row) {
    FILE* file = fopen(name, "r");
    want(file);
    static char line[200'000];
    char letter;
    uint32_t a, b, c;
    while (fgets(line, sizeof line, file)) {
        if (sscanf(line, "s %u %u %c", &a, &b, &letter) == 3) edits.push_back({'s', a, b, codes.of[uint8_t(letter)]});
        else if (sscanf(line, "w %u %u %u", &a, &b, &c) == 3) edits.push_back({'w', a, b, c});
        else if (sscanf(line, "g %u %u", &a, &b) == 2) edits.push_back({'g', a, b, 0});
        else if (line[0] == '-' || line[0] == '+') edits.push_back({line[0], 0, 0, 0});
        else if (sscanf(line, "v %u %u", &a, &b) == 2) cells.push_back({a, b});
        if (line[0] == '+') row.assign(line + 2, strcspn(line + 2, "\n"));
    }
    fclose(file);
}

static Workbench::Fault done_with(Workbench& workbench, const Edit& edit, const std::string& row) {
    switch (edit.letter) {
        case 's': return workbench.set_bit(edit.a, edit.b, Code(edit.c));
        case 'w': return workbench.rewire(edit.a, edit.b, edit.c);
        case 'g': return workbench.append_gate(edit.a, edit.b);
        case '-': return workbench.drop_frame();
        default: return workbench.add_frame(row.data(), row.size());
    }
}

// Prints the time since the last call, of each of so many.
static void lap(const char* name, size_t count) {
    static double last;
    timespec now;
    want(clock_gettime(CLOCK_PROCESS_CPUTIME_ID, &now) == 0);
    double seconds = double(now.tv_sec) + 1e-9 * double(now.tv_nsec);
    if (count) printf("%s %.3f\n", name, (seconds - last) / double(count) * 1e9);
    last = seconds;
}

static void time_calls(Workbench& workbench, const char* script) {
    std::vector<Edit> edits;
    std::vector<Cell> cells;
    std::string row;
    read_script(script, edits, cells, row);
    std::vector<char> letters(cells.size());
    lap("", 0);
    for (const Edit& edit : edits) want(done_with(workbench, edit, row) == 0);
    lap("edit", edits.size());
    for (size_t at = 0; at < cells.size(); ++at)
        want(workbench.ask(cells[at].frame, cells[at].literal, letters[at]) == 0);
    lap("question", cells.size());
}
