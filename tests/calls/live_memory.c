/* Refuses each allocation of each call on a bench in turn: live_memory EXAMPLES. A call either goes well or says that
   memory ran out, and then leaves the bench as it was, which still answers and can be closed. It prints how many calls
   did which. The linker gets --wrap=malloc,--wrap=realloc. */
#include "aig.h"
#include "wanted.h"

void *__real_malloc(size_t size);
void *__real_realloc(void *old, size_t size);

/* The allocation that is refused, counted from 1; none where it is 0. */
static long refused, seen;

void *__wrap_malloc(size_t size) { return ++seen == refused ? NULL : __real_malloc(size); }
void *__wrap_realloc(void *old, size_t size) { return ++seen == refused ? NULL : __real_realloc(old, size); }

/* What a bench is: its circuit, its rows and its trace. */
struct texts { uint8_t circuit[1024], stimulus[64], trace[256]; size_t lengths[3]; };

static struct file counter, stimulus;

static struct texts texts_of(struct aig_live *bench)
{
    struct texts all;
    memset(&all, 0, sizeof all);
    WANT(aig_live_circuit(bench, all.circuit, sizeof all.circuit, &all.lengths[0]) == AIG_DONE);
    WANT(aig_live_stimulus(bench, all.stimulus, sizeof all.stimulus, &all.lengths[1]) == AIG_DONE);
    WANT(aig_live_trace(bench, all.trace, sizeof all.trace, &all.lengths[2]) == AIG_DONE);
    return all;
}

/* Many rewires of gates to one input: it has more readers than there was room for. */
static uint8_t rewired(struct aig_live *bench, struct aig_report *report)
{
    uint8_t status = 0;
    for (uint32_t gate = 14; gate < 46 && !status; gate += 2)
        status = aig_live_rewire(bench, gate, 2, 4, report);
    return status;
}

static uint8_t call(int number, struct aig_live *bench)
{
    uint8_t room[4096], rows[16] = {0};
    size_t length, done;
    uint32_t literal;
    struct aig_report report;
    struct aig_edit edits[] = {{AIG_EDIT_APPEND, 2, 4, 0}};
    switch (number) {
    case 0: return rewired(bench, &report);
    case 1: return aig_live_append_gate(bench, 2, 4, &literal, &report);
    case 2: return aig_live_add_frame(bench, rows, 2, &report);
    case 3: return aig_live_edits(bench, edits, 1, &done, &report);
    case 4: return aig_live_replace_rows(bench, rows, 16);
    case 5: return aig_live_trace(bench, ROOM);
    case 6: return aig_live_unrolled(bench, true, ROOM);
    case 7: return aig_live_circuit(bench, ROOM);
    default: return aig_live_stimulus(bench, ROOM);
    }
}

/* Opens a bench without the allocation of this number, and says whether there was such a one. */
static int opens_without(long number, long *done, long *without)
{
    uint8_t room[64] = {0};
    size_t length = 77;
    struct aig_live bench = AIG_LIVE_NONE;
    refused = number;
    seen = 0;
    uint8_t status = aig_live_open(OF(counter), OF(stimulus), &bench, ROOM);
    refused = 0;
    WANT(length == 77 && !room[0]);
    WANT(status == AIG_DONE || (status == AIG_NO_MEMORY && !bench.present));
    WANT(aig_live_close(&bench) == (status == AIG_DONE ? 0 : AIG_NOT_OPEN));
    *done += status == AIG_DONE;
    *without += status == AIG_NO_MEMORY;
    return seen >= number;
}

/* Makes a call of a new bench without the allocation of this number. */
static int calls_without(int call_number, long number, long *done, long *without)
{
    uint8_t room[64];
    size_t length;
    struct aig_live bench = AIG_LIVE_NONE;
    uint8_t memory = call_number < 5 ? (uint8_t)AIG_OUT_OF_MEMORY : (uint8_t)AIG_NO_MEMORY;
    WANT(aig_live_open(OF(counter), OF(stimulus), &bench, ROOM) == AIG_DONE);
    struct texts before = texts_of(&bench);
    refused = number;
    seen = 0;
    uint8_t status = call(call_number, &bench);
    refused = 0;
    int was = seen >= number;
    WANT(status == 0 || status == memory);
    if (status && call_number) {
        struct texts after = texts_of(&bench);
        WANT(!memcmp(&before, &after, sizeof before));
    }
    WANT(call(call_number, &bench) == 0);
    WANT(aig_live_close(&bench) == 0);
    *done += status == 0;
    *without += status != 0;
    return was;
}

int main(int count, char **words)
{
    long done = 0, without = 0;
    WANT(count == 2);
    counter = contents(words[1], "counter.aag");
    stimulus = contents(words[1], "counter.stim");
    for (long number = 1; opens_without(number, &done, &without); number++)
        ;
    for (int one = 0; one < 9; one++) {
        long lacking = 0;
        for (long number = 1; calls_without(one, number, &done, &lacking); number++)
            ;
        WANT(lacking > 0);
        without += lacking;
    }
    free(counter.bytes);
    free(stimulus.bytes);
    printf("%ld done, %ld without memory\n", done, without);
    return 0;
}
