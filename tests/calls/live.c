/* Keeps benches open as a C program does: live EXAMPLES TIMES. Each call before a bench is opened and after it is
   closed; edits, questions and texts with results that are known by hand, and each status; a bench that is moved; what
   a call gets, between pages that nobody may touch; and edits in two threads, TIMES each, beside one thread alone. It
   stops at the first answer that is wrong. */
#define _DEFAULT_SOURCE
#include "aig.h"
#include "wanted.h"
#include <pthread.h>
#include <sys/mman.h>
#include <unistd.h>

/* 6 = 2 AND 4, 8 = 6 AND 2, an output 8; variable 5 is not defined */
#define GATES "aag 5 2 0 1 2\n2\n4\n8\n6 2 4\n8 6 2\n"
/* a latch that keeps its value */
#define LATCH "aag 2 1 1 1 0\n2\n4 4\n4\n"
#define LENGTH(array) (sizeof(array) / sizeof *(array))

static struct file counter, stimulus;

/* Each call without a bench changes nothing. */
static void none(struct aig_live *bench)
{
    uint8_t room[8] = "as it is", value = 77;
    size_t length = 77, done = 77;
    uint32_t literal = 77;
    struct aig_report report = {77, 78};
    struct aig_sizes sizes = {77, 77, 77, 77, 77, 77};
    struct aig_edit edit = {AIG_EDIT_SET, 0, 0, 1};
    struct aig_cell cell = {0, 2};
    uint8_t row[1] = {3};
    WANT(aig_live_set(bench, 0, 0, 3, &report) == AIG_NOT_OPEN);
    WANT(aig_live_set(bench, 0, 0, 1, &report) == AIG_NOT_OPEN);
    WANT(aig_live_rewire(bench, 6, 2, 2, &report) == AIG_NOT_OPEN);
    WANT(aig_live_reset(bench, 6, 1, &report) == AIG_NOT_OPEN);
    WANT(aig_live_reset(bench, 6, 9, &report) == AIG_NOT_OPEN);
    WANT(aig_live_output(bench, 0, 2, &report) == AIG_NOT_OPEN);
    WANT(aig_live_append_gate(bench, 2, 2, &literal, &report) == AIG_NOT_OPEN);
    WANT(aig_live_add_frame(bench, row, 1, &report) == AIG_NOT_OPEN);
    WANT(aig_live_add_frame(bench, row, 0, &report) == AIG_NOT_OPEN);
    WANT(aig_live_drop_frame(bench, &report) == AIG_NOT_OPEN);
    WANT(aig_live_edits(bench, &edit, 1, &done, &report) == AIG_NOT_OPEN);
    WANT(aig_live_edits(bench, &edit, 0, &done, &report) == AIG_NOT_OPEN);
    WANT(aig_live_replace_rows(bench, row, 1) == AIG_NOT_OPEN);
    WANT(aig_live_replace_rows(bench, row, 0) == AIG_NOT_OPEN);
    WANT(aig_live_value(bench, 0, 2, &value) == AIG_NOT_OPEN);
    WANT(aig_live_values(bench, &cell, 1, &value, 0) == AIG_NOT_OPEN);
    WANT(aig_live_values(bench, &cell, 1, &value, 1) == AIG_NOT_OPEN);
    WANT(aig_live_row(bench, 0, &literal, 1, &value, 0) == AIG_NOT_OPEN);
    WANT(aig_live_row(bench, 0, &literal, 1, &value, 1) == AIG_NOT_OPEN);
    WANT(aig_live_sizes(bench, &sizes) == AIG_NOT_OPEN);
    WANT(aig_live_trace(bench, ROOM) == AIG_NOT_OPEN);
    WANT(aig_live_trace(bench, room, 0, &length) == AIG_NOT_OPEN);
    WANT(aig_live_unrolled(bench, true, ROOM) == AIG_NOT_OPEN);
    WANT(aig_live_circuit(bench, ROOM) == AIG_NOT_OPEN);
    WANT(aig_live_stimulus(bench, ROOM) == AIG_NOT_OPEN);
    WANT(aig_live_close(bench) == AIG_NOT_OPEN);
    WANT(!memcmp(room, "as it is", 8) && value == 77 && length == 77 && done == 77 && literal == 77);
    WANT(report.evaluated == 77 && report.changed == 78 && sizes.frames == 77 && sizes.max_var == 77);
    WANT(!bench->present);
}

static uint8_t value_at(struct aig_live *bench, uint32_t frame, uint32_t literal)
{
    uint8_t value = 77;
    WANT(aig_live_value(bench, frame, literal, &value) == AIG_LIVE_OK);
    return value;
}

static void opening(void)
{
    uint8_t room[64] = "as it is";
    size_t length = 77;
    struct aig_live bench = AIG_LIVE_NONE;
    none(&bench);
    WANT(aig_live_open(TEXT(GATES), TEXT("11\n0\n"), &bench, ROOM) == AIG_REFUSED);
    WANT(says(room, length, "stimulus: length of line 2"));
    WANT(aig_live_open(TEXT("aag"), TEXT(""), &bench, room, 3, &length) == AIG_REFUSED && length == 0);
    none(&bench);
    length = 77;
    WANT(aig_live_open(TEXT(GATES), TEXT("11\n01\n"), &bench, ROOM) == AIG_DONE && length == 77);
    WANT(aig_live_open(TEXT(LATCH), TEXT("1\n"), &bench, ROOM) == AIG_HELD && length == 77);
    WANT(aig_live_open(TEXT("aag"), TEXT(""), &bench, ROOM) == AIG_HELD && length == 77);
    WANT(value_at(&bench, 0, 8) == 1 && value_at(&bench, 1, 8) == 0 && value_at(&bench, 1, 9) == 1);
    /* it may be moved, if the old place is forgotten */
    struct aig_live moved = bench;
    memset(&bench, 0xff, sizeof bench);
    WANT(value_at(&moved, 0, 8) == 1);
    WANT(aig_live_close(&moved) == 0 && aig_live_close(&moved) == AIG_NOT_OPEN);
    none(&moved);
    WANT(aig_live_open(TEXT(GATES), TEXT(""), &moved, ROOM) == AIG_DONE && aig_live_close(&moved) == 0);
}

static void edits(void)
{
    uint8_t room[64];
    uint8_t row[] = {1, 0, 3};
    size_t length;
    uint32_t literal = 77;
    struct aig_live bench = AIG_LIVE_NONE;
    struct aig_report report = {77, 78};
    WANT(aig_live_open(TEXT(GATES), TEXT("11\n01\n"), &bench, ROOM) == AIG_DONE);
    WANT(aig_live_set(&bench, 0, 1, 3, &report) == AIG_NO_VALUE);
    WANT(aig_live_set(&bench, 9, 1, 255, &report) == AIG_NO_VALUE);
    WANT(aig_live_set(&bench, 2, 9, 0, &report) == AIG_NO_FRAME);
    WANT(aig_live_set(&bench, 1, 2, 0, &report) == AIG_NO_INPUT);
    WANT(aig_live_rewire(&bench, 2, 99, 2, &report) == AIG_NOT_A_GATE);
    WANT(aig_live_rewire(&bench, 8, 12, 10, &report) == AIG_RANGE);
    WANT(aig_live_rewire(&bench, 6, 8, 10, &report) == AIG_UNDEFINED);
    WANT(aig_live_rewire(&bench, 6, 2, 9, &report) == AIG_CYCLE);
    WANT(aig_live_reset(&bench, 2, 0, &report) == AIG_NOT_A_LATCH);
    WANT(aig_live_reset(&bench, 2, 3, &report) == AIG_NO_VALUE);
    WANT(aig_live_output(&bench, 9, 12, &report) == AIG_RANGE);
    WANT(aig_live_output(&bench, 9, 11, &report) == AIG_UNDEFINED);
    WANT(aig_live_output(&bench, 1, 2, &report) == AIG_NO_OUTPUT);
    WANT(aig_live_append_gate(&bench, 12, 10, &literal, &report) == AIG_RANGE);
    WANT(aig_live_append_gate(&bench, 10, 2, &literal, &report) == AIG_UNDEFINED && literal == 77);
    WANT(aig_live_add_frame(&bench, row, 1, &report) == AIG_LENGTH);
    WANT(aig_live_add_frame(&bench, row, 3, &report) == AIG_NO_VALUE);
    WANT(report.evaluated == 77 && report.changed == 78);
    /* input 1 at frame 0 goes to both gates, and both change */
    WANT(aig_live_set(&bench, 0, 1, 0, &report) == AIG_LIVE_OK && report.evaluated == 2 && report.changed == 2);
    WANT(aig_live_set(&bench, 0, 1, 2, &report) == AIG_LIVE_OK && value_at(&bench, 0, 8) == 2);
    WANT(aig_live_append_gate(&bench, 9, 2, &literal, &report) == AIG_LIVE_OK && literal == 12);
    WANT(report.evaluated == 2 && report.changed == 0 && value_at(&bench, 1, 12) == 0);
    WANT(aig_live_output(&bench, 0, 13, &report) == AIG_LIVE_OK && report.evaluated == 0);
    WANT(aig_live_rewire(&bench, 6, 3, 4, &report) == AIG_LIVE_OK && value_at(&bench, 1, 6) == 1);
    WANT(aig_live_add_frame(&bench, row, 2, &report) == AIG_LIVE_OK && report.evaluated == 3 && report.changed == 0);
    WANT(value_at(&bench, 2, 2) == 1 && value_at(&bench, 2, 12) == 1);
    WANT(aig_live_circuit(&bench, ROOM) == AIG_DONE);
    WANT(says(room, length, "aag 6 2 0 1 3\n2\n4\n13\n6 3 4\n8 6 2\n12 9 2\n"));
    WANT(aig_live_stimulus(&bench, ROOM) == AIG_DONE && says(room, length, "1x\n01\n10\n"));
    for (int frame = 0; frame < 3; frame++)
        WANT(aig_live_drop_frame(&bench, &report) == AIG_LIVE_OK && report.evaluated == 0 && report.changed == 0);
    WANT(aig_live_drop_frame(&bench, &report) == AIG_EMPTY);
    WANT(aig_live_close(&bench) == 0);
    WANT(aig_live_open(TEXT(LATCH), TEXT("1\n1\n"), &bench, ROOM) == AIG_DONE && value_at(&bench, 1, 4) == 0);
    WANT(aig_live_reset(&bench, 4, 2, &report) == AIG_LIVE_OK && value_at(&bench, 1, 4) == 2);
    WANT(aig_live_close(&bench) == 0);
}

static void many(void)
{
    uint8_t room[64];
    size_t length, done = 77;
    struct aig_live bench = AIG_LIVE_NONE;
    struct aig_report sum = {77, 78};
    struct aig_edit all[] = {
        {AIG_EDIT_SET, 0, 1, 0}, {AIG_EDIT_REWIRE, 8, 2, 4}, {AIG_EDIT_APPEND, 9, 2, 0}, {AIG_EDIT_OUTPUT, 0, 12, 0},
        {AIG_EDIT_DROP, 0, 0, 0}, {AIG_EDIT_SET, 1, 0, 1}, {AIG_EDIT_SET, 0, 0, 0}};
    WANT(aig_live_open(TEXT(GATES), TEXT("11\n01\n"), &bench, ROOM) == AIG_DONE);
    WANT(aig_live_edits(&bench, all, 0, &done, &sum) == AIG_LIVE_OK && done == 0 && !sum.evaluated && !sum.changed);
    WANT(aig_live_edits(&bench, all, LENGTH(all), &done, &sum) == AIG_NO_FRAME && done == 5);
    /* 2 cells by the input, which change; 8 and its like at the other frame; a gate at two frames */
    WANT(sum.evaluated == 6 && sum.changed == 2);
    WANT(aig_live_circuit(&bench, ROOM) == AIG_DONE);
    WANT(says(room, length, "aag 6 2 0 1 3\n2\n4\n12\n6 2 4\n8 2 4\n12 9 2\n"));
    WANT(aig_live_stimulus(&bench, ROOM) == AIG_DONE && says(room, length, "10\n"));
    struct aig_edit kind[] = {{AIG_EDIT_SET, 0, 1, 1}, {6, 0, 0, 0}}, value[] = {{AIG_EDIT_SET, 0, 0, 256}};
    struct aig_edit reset[] = {{AIG_EDIT_RESET, 4, 3, 0}}, latch[] = {{AIG_EDIT_RESET, 4, 2, 0}};
    WANT(aig_live_edits(&bench, kind, 2, &done, &sum) == AIG_NO_KIND && done == 1 && value_at(&bench, 0, 6) == 1);
    kind[1].kind = 0xffffffff;
    WANT(aig_live_edits(&bench, kind + 1, 1, &done, &sum) == AIG_NO_KIND && done == 0);
    WANT(aig_live_edits(&bench, value, 1, &done, &sum) == AIG_NO_VALUE && done == 0 && sum.evaluated == 0);
    WANT(aig_live_edits(&bench, reset, 1, &done, &sum) == AIG_NO_VALUE);
    WANT(aig_live_edits(&bench, latch, 1, &done, &sum) == AIG_NOT_A_LATCH && done == 0);
    WANT(aig_live_close(&bench) == 0);
}

static void questions(void)
{
    uint8_t room[64], values[4] = {77, 77, 77, 77}, rows[] = {0, 1, 2, 1, 1, 1};
    size_t length;
    struct aig_live bench = AIG_LIVE_NONE;
    struct aig_sizes sizes;
    struct aig_cell cells[] = {{0, 8}, {1, 9}, {0, 12}, {2, 8}};
    uint32_t literals[] = {2, 5, 10};
    WANT(aig_live_open(TEXT(GATES), TEXT("11\n01\n"), &bench, ROOM) == AIG_DONE);
    WANT(aig_live_value(&bench, 0, 12, values) == AIG_RANGE && aig_live_value(&bench, 9, 10, values) == AIG_UNDEFINED);
    WANT(aig_live_value(&bench, 2, 8, values) == AIG_NO_FRAME && values[0] == 77);
    WANT(aig_live_values(&bench, cells, 4, values, 3) == AIG_SHORT && values[0] == 77);
    WANT(aig_live_values(&bench, cells, 3, values, 4) == AIG_LIVE_OK && values[3] == 77);
    WANT(aig_live_values(&bench, cells, 4, values, 4) == AIG_LIVE_OK);
    WANT(values[0] == 1 && values[1] == 1 && values[2] == 16 + AIG_RANGE && values[3] == 16 + AIG_NO_FRAME);
    WANT(aig_live_row(&bench, 1, literals, 3, values, 2) == AIG_SHORT && values[2] == 16 + AIG_RANGE);
    WANT(aig_live_row(&bench, 1, literals, 3, values, 4) == AIG_LIVE_OK);
    WANT(values[0] == 0 && values[1] == 0 && values[2] == 16 + AIG_UNDEFINED && values[3] == 16 + AIG_NO_FRAME);
    WANT(aig_live_sizes(&bench, &sizes) == AIG_LIVE_OK && sizes.frames == 2 && sizes.inputs == 2);
    WANT(sizes.latches == 0 && sizes.outputs == 1 && sizes.gates == 2 && sizes.max_var == 5);
    WANT(aig_live_replace_rows(&bench, rows, 5) == AIG_LENGTH && aig_live_replace_rows(&bench, rows, 6) == AIG_LENGTH);
    WANT(value_at(&bench, 0, 2) == 1);
    WANT(aig_live_replace_rows(&bench, rows, 4) == AIG_LIVE_OK);
    WANT(aig_live_stimulus(&bench, ROOM) == AIG_DONE && says(room, length, "01\nx1\n") && value_at(&bench, 1, 8) == 2);
    rows[3] = 3;
    WANT(aig_live_replace_rows(&bench, rows, 4) == AIG_NO_VALUE);
    WANT(aig_live_close(&bench) == 0);
}

static void texts(void)
{
    uint8_t room[64], small[8] = "as it is";
    size_t length = 77;
    struct aig_live bench = AIG_LIVE_NONE;
    struct aig_report report;
    WANT(aig_live_open(TEXT(GATES), TEXT("11\n01\n"), &bench, ROOM) == AIG_DONE);
    WANT(aig_live_trace(&bench, small, 8, &length) == AIG_NO_ROOM && length == 77 && !memcmp(small, "as it is", 8));
    WANT(aig_live_trace(&bench, ROOM) == AIG_DONE && says(room, length, " 11 1 \n 01 0 \n"));
    WANT(aig_live_trace(&bench, room, 14, &length) == AIG_DONE);
    WANT(aig_live_trace(&bench, room, 13, &length) == AIG_NO_ROOM);
    WANT(aig_live_stimulus(&bench, small, 5, &length) == AIG_NO_ROOM && length == 14);
    WANT(aig_live_stimulus(&bench, small, 6, &length) == AIG_DONE && says(small, length, "11\n01\n"));
    WANT(aig_live_circuit(&bench, small, 8, &length) == AIG_NO_ROOM && length == 6);
    WANT(aig_live_circuit(&bench, room, sizeof GATES - 1, &length) == AIG_DONE && says(room, length, GATES));
    WANT(aig_live_drop_frame(&bench, &report) == AIG_LIVE_OK);
    WANT(aig_live_unrolled(&bench, false, ROOM) == AIG_DONE);
    WANT(says(room, length, "aag 4 2 0 1 2\n2\n4\n8\n6 4 2\n8 6 2\n"));
    WANT(aig_live_unrolled(&bench, true, ROOM) == AIG_DONE && says(room, length, "aig 4 2 0 1 2\n8\n\2\2\2\4"));
    WANT(aig_live_drop_frame(&bench, &report) == AIG_LIVE_OK);
    WANT(aig_live_unrolled(&bench, true, ROOM) == AIG_REFUSED && says(room, length, "unroll: no frames"));
    WANT(aig_live_unrolled(&bench, true, room, 3, &length) == AIG_REFUSED && length == 0);
    WANT(aig_live_trace(&bench, room, 0, &length) == AIG_DONE && length == 0);
    WANT(aig_live_close(&bench) == 0);
}

/* A bench has at most 65,536 frames, and 2^26 cells. */
static void limits(void)
{
    uint8_t room[64], *rows = (uint8_t *)malloc(2 * 65536), row[1] = {0};
    size_t length;
    uint32_t literal;
    struct aig_live bench = AIG_LIVE_NONE;
    struct aig_report report;
    WANT(rows);
    for (int frame = 0; frame < 65536; frame++)
        memcpy(rows + 2 * frame, "1\n", 2);
    WANT(aig_live_open(TEXT("aag 1023 1 0 0 0\n2\n"), rows, 2 * 65536, &bench, ROOM) == AIG_DONE);
    WANT(aig_live_append_gate(&bench, 2, 2, &literal, &report) == AIG_LIMIT);
    WANT(aig_live_add_frame(&bench, row, 1, &report) == AIG_LIMIT);
    WANT(aig_live_drop_frame(&bench, &report) == AIG_LIVE_OK);
    WANT(aig_live_add_frame(&bench, row, 1, &report) == AIG_LIVE_OK && value_at(&bench, 65535, 2) == 0);
    WANT(aig_live_close(&bench) == 0);
    WANT(aig_live_open(TEXT("aag 1024 1 0 0 0\n2\n"), rows, 2 * 65536, &bench, ROOM) == AIG_REFUSED);
    WANT(says(room, length, "bench: limit"));
    free(rows);
}

/* A place of this size with pages around it that nobody may touch: at its front, or at its end. */
static void *guarded(size_t size, int at_front)
{
    long page = sysconf(_SC_PAGESIZE);
    char *pages = (char *)mmap(NULL, 3 * page, PROT_READ | PROT_WRITE, MAP_PRIVATE | MAP_ANONYMOUS, -1, 0);
    WANT(pages != MAP_FAILED && !mprotect(pages, page, PROT_NONE) && !mprotect(pages + 2 * page, page, PROT_NONE));
    return at_front ? pages + page : pages + 2 * page - size;
}

static void guards(int at_front)
{
    uint8_t room[64];
    size_t length;
    struct aig_live *bench = (struct aig_live *)guarded(sizeof *bench, at_front);
    struct aig_report *report = (struct aig_report *)guarded(sizeof *report, at_front);
    struct aig_sizes *sizes = (struct aig_sizes *)guarded(sizeof *sizes, at_front);
    struct aig_edit *edit = (struct aig_edit *)guarded(2 * sizeof *edit, at_front);
    struct aig_cell *cell = (struct aig_cell *)guarded(2 * sizeof *cell, at_front);
    uint32_t *literal = (uint32_t *)guarded(2 * sizeof *literal, at_front);
    size_t *done = (size_t *)guarded(sizeof *done, at_front);
    uint8_t *values = (uint8_t *)guarded(2, at_front), *text = (uint8_t *)guarded(6, at_front);
    WANT(aig_live_open(TEXT(GATES), TEXT("11\n01\n"), bench, ROOM) == AIG_DONE);
    edit[0] = edit[1] = (struct aig_edit){AIG_EDIT_SET, 0, 1, 0};
    cell[0] = cell[1] = (struct aig_cell){1, 2};
    literal[0] = literal[1] = 5;
    values[0] = values[1] = 1;
    WANT(aig_live_edits(bench, edit, 2, done, report) == AIG_LIVE_OK && *done == 2 && report->changed == 2);
    WANT(aig_live_values(bench, cell, 2, values, 2) == AIG_LIVE_OK && values[0] == 0 && values[1] == 0);
    WANT(aig_live_row(bench, 0, literal, 2, values, 2) == AIG_LIVE_OK && values[0] == 1 && values[1] == 1);
    WANT(aig_live_value(bench, 0, 2, values + 1) == AIG_LIVE_OK && aig_live_sizes(bench, sizes) == AIG_LIVE_OK);
    WANT(aig_live_add_frame(bench, values, 2, report) == AIG_LIVE_OK && report->evaluated == 2);
    WANT(aig_live_drop_frame(bench, report) == AIG_LIVE_OK && sizes->gates == 2);
    WANT(aig_live_append_gate(bench, 2, 4, literal + 1, report) == AIG_LIVE_OK && literal[1] == 12);
    WANT(aig_live_stimulus(bench, text, 6, done) == AIG_DONE && says(text, *done, "10\n01\n"));
    WANT(aig_live_close(bench) == 0);
}

/* Edits and questions of a bench, and a number that all answers make. */
struct work { long times; uint32_t sum; };

static void *works(void *given)
{
    struct work *work = (struct work *)given;
    uint8_t room[64], value = 0;
    size_t length;
    uint32_t seed = work->sum;
    struct aig_live bench = AIG_LIVE_NONE;
    struct aig_report report = {0, 0};
    WANT(aig_live_open(OF(counter), OF(stimulus), &bench, ROOM) == AIG_DONE);
    for (long count = 0; count < work->times; count++) {
        seed = seed * 1664525u + 1013904223u;
        uint32_t gate = 14 + 2 * (seed >> 8) % 18, status = 0;
        status += aig_live_set(&bench, (seed >> 8) % 9, (seed >> 20) & 1, (seed >> 24) % 3, &report);
        status += 16 * aig_live_rewire(&bench, gate, (seed >> 12) % 47, (seed >> 16) % 47, &report);
        status += 256 * aig_live_value(&bench, (seed >> 10) % 8, (seed >> 13) % 47, &value);
        work->sum = work->sum * 31 + status + value + (uint32_t)report.evaluated + 7 * (uint32_t)report.changed;
    }
    WANT(aig_live_close(&bench) == 0);
    return NULL;
}

static void threads(long times)
{
    struct work alone[2] = {{times, 1}, {times, 2}}, together[2] = {{times, 1}, {times, 2}};
    pthread_t thread[2];
    for (int one = 0; one < 2; one++)
        works(&alone[one]);
    for (int one = 0; one < 2; one++)
        WANT(!pthread_create(&thread[one], NULL, works, &together[one]));
    for (int one = 0; one < 2; one++)
        WANT(!pthread_join(thread[one], NULL));
    WANT(alone[0].sum == together[0].sum && alone[1].sum == together[1].sum && alone[0].sum != alone[1].sum);
}

int main(int count, char **words)
{
    WANT(count == 3);
    counter = contents(words[1], "counter.aag");
    stimulus = contents(words[1], "counter.stim");
    opening();
    edits();
    many();
    questions();
    texts();
    limits();
    guards(0);
    guards(1);
    threads(atol(words[2]));
    free(counter.bytes);
    free(stimulus.bytes);
    puts("as wanted");
    return 0;
}
