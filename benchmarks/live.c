/* Times the lines `s`, `w`, `g`, `-`, `+` and `v` of a script on a bench that stays open: live CIRCUIT ROWS SCRIPT.
   First the edits are done with a call each, then the questions asked with a call each; then both again on a new bench,
   as one array each. It prints four numbers by name: nanoseconds of processor time of an edit and of a question, in
   calls and in arrays. All lines `+` have the row of the last one; with one there is no array of edits. */
#define _POSIX_C_SOURCE 199309L
#include "aig.h"
#include "wanted.h"
#include <time.h>

enum { MOST = 2000000 };

static struct aig_edit edits[MOST];
static struct aig_cell cells[MOST];
static uint8_t values[MOST], asked[MOST];
static size_t edits_length, cells_length, row_length;

/* a line `+`, which is no edit of an array */
enum { ADD = AIG_EDIT_DROP + 1, WIDEST = 200000 };
static char line[WIDEST];
static uint8_t row[WIDEST];

static uint32_t value_of(char letter) { return letter == 'x' ? 2 : (uint32_t)(letter - '0'); }

static void edit(uint32_t kind, uint32_t a, uint32_t b, uint32_t c)
{
    edits[edits_length++] = (struct aig_edit){kind, a, b, c};
}

static void read_row(const char *values)
{
    for (row_length = 0; values[row_length] > ' '; row_length++)
        row[row_length] = (uint8_t)value_of(values[row_length]);
    edit(ADD, 0, 0, 0);
}

static void read_script(const char *name)
{
    char value;
    FILE *file = fopen(name, "r");
    WANT(file);
    while (fgets(line, sizeof line, file)) {
        uint32_t a, b, c;
        WANT(edits_length < MOST && cells_length < MOST);
        if (sscanf(line, "s %u %u %c", &a, &b, &value) == 3)
            edit(AIG_EDIT_SET, a, b, value_of(value));
        else if (sscanf(line, "w %u %u %u", &a, &b, &c) == 3)
            edit(AIG_EDIT_REWIRE, a, b, c);
        else if (sscanf(line, "g %u %u", &a, &b) == 2)
            edit(AIG_EDIT_APPEND, a, b, 0);
        else if (line[0] == '-')
            edit(AIG_EDIT_DROP, 0, 0, 0);
        else if (line[0] == '+')
            read_row(line + 2);
        else if (sscanf(line, "v %u %u", &a, &b) == 2)
            cells[cells_length++] = (struct aig_cell){a, b};
    }
    fclose(file);
}

/* Prints the time since the last call, of each of so many. */
static void lap(const char *name, size_t count)
{
    static double last;
    struct timespec now;
    WANT(!clock_gettime(CLOCK_PROCESS_CPUTIME_ID, &now));
    double seconds = (double)now.tv_sec + 1e-9 * (double)now.tv_nsec;
    if (count)
        printf("%s %.3f\n", name, (seconds - last) / (double)count * 1e9);
    last = seconds;
}

static uint8_t done_with(struct aig_live *bench, const struct aig_edit *one)
{
    struct aig_report report;
    uint32_t literal;
    switch (one->kind) {
    case AIG_EDIT_SET:
        return aig_live_set(bench, one->a, one->b, (uint8_t)one->c, &report);
    case AIG_EDIT_REWIRE:
        return aig_live_rewire(bench, one->a, one->b, one->c, &report);
    case AIG_EDIT_APPEND:
        return aig_live_append_gate(bench, one->a, one->b, &literal, &report);
    case AIG_EDIT_DROP:
        return aig_live_drop_frame(bench, &report);
    default:
        return aig_live_add_frame(bench, row, row_length, &report);
    }
}

static void one_by_one(struct aig_live *bench)
{
    lap("", 0);
    for (size_t at = 0; at < edits_length; at++)
        WANT(!done_with(bench, &edits[at]));
    lap("edit", edits_length);
    for (size_t at = 0; at < cells_length; at++)
        WANT(!aig_live_value(bench, cells[at].frame, cells[at].literal, &asked[at]));
    lap("question", cells_length);
}

static void in_arrays(struct aig_live *bench)
{
    struct aig_report sum;
    size_t done;
    lap("", 0);
    if (!row_length) {
        WANT(!aig_live_edits(bench, edits, edits_length, &done, &sum));
        lap("edit_of_an_array", edits_length);
    }
    WANT(!aig_live_values(bench, cells, cells_length, values, MOST));
    lap("question_of_an_array", cells_length);
}

/* Does this on a new bench. */
static void on_a_bench(struct file circuit, struct file rows, void (*all)(struct aig_live *))
{
    uint8_t room[256];
    size_t length;
    struct aig_live bench = AIG_LIVE_NONE;
    WANT(aig_live_open(OF(circuit), OF(rows), &bench, ROOM) == AIG_DONE);
    all(&bench);
    WANT(!aig_live_close(&bench));
}

int main(int count, char **words)
{
    WANT(count == 4);
    struct file circuit = contents(".", words[1]), rows = contents(".", words[2]);
    read_script(words[3]);
    on_a_bench(circuit, rows, one_by_one);
    on_a_bench(circuit, rows, in_arrays);
    WANT(!memcmp(asked, values, cells_length));
    return 0;
}
