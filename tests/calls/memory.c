/* Refuses each allocation of each call in turn: memory EXAMPLES. A call either goes well or says that memory ran out,
   and then leaves the room as it was. It prints how many calls did which. The linker gets --wrap=malloc,--wrap=realloc. */
#include "aig.h"
#include <stdio.h>
#include <stdlib.h>
#include <string.h>

#define OF(it) (it).bytes, (it).length
#define TEXT(text) (const uint8_t *)(text), sizeof(text) - 1
#define ROOM room, sizeof room, &length
/* a latch that keeps its value, and is bad if it is 1: no certificate of itself */
#define STUCK "aag 1 0 1 0 0 1\n2 2 1\n2\n"

struct file { uint8_t bytes[1024]; size_t length; };

void *__real_malloc(size_t size);
void *__real_realloc(void *old, size_t size);

/* The allocation that is refused, counted from 1; none where it is 0. */
static long refused, seen;

void *__wrap_malloc(size_t size) { return ++seen == refused ? NULL : __real_malloc(size); }
void *__wrap_realloc(void *old, size_t size) { return ++seen == refused ? NULL : __real_realloc(old, size); }

static struct file wraps, witness, proof, model, ring, certificate, ring_proof;
static uint8_t room[8192];
static size_t length;
static bool confirmed;

static void fill(struct file *file, const char *folder, const char *name)
{
    char path[4096];
    snprintf(path, sizeof path, "%s/%s", folder, name);
    FILE *from = fopen(path, "rb");
    if (!from)
        exit(2);
    file->length = fread(file->bytes, 1, sizeof file->bytes, from);
    fclose(from);
}

static uint8_t call(int number)
{
    switch (number) {
    case 0: return aig_toaig(OF(wraps), true, ROOM);
    case 1: return aig_info(OF(wraps), ROOM);
    case 2: return aig_names(OF(wraps), ROOM);
    case 3: return aig_unroll(OF(wraps), 3, true, ROOM);
    case 4: return aig_strengthen(OF(ring), OF(certificate), 0, true, ROOM);
    case 5: return aig_check(OF(wraps), OF(witness), ROOM, &confirmed);
    case 6: return aig_witness(OF(wraps), TEXT("1\n1\n1\n1\n"), 0, ROOM);
    case 7: return aig_reduce(OF(wraps), OF(witness), ROOM, &confirmed);
    case 8: return aig_wave_witness(OF(wraps), OF(witness), ROOM);
    case 9: return aig_bench(OF(wraps), TEXT("1\n1\n"), TEXT("v 1 4\nt\n"), ROOM);
    case 10: return aig_cnf(OF(wraps), 3, 0, false, ROOM);
    case 11: return aig_cnf_alive(OF(wraps), 3, ROOM);
    case 12: return aig_cnf_certified(OF(ring), OF(certificate), 0, ROOM);
    case 13: return aig_model_witness(OF(wraps), OF(model), 4, 0, false, ROOM);
    case 14: return aig_refute(OF(wraps), OF(proof), 3, 0, ROOM);
    case 15: return aig_refute_alive(TEXT("aag 0 0 0 0 0 0 1\n0\n"), TEXT(""), 5, ROOM);
    case 16: return aig_refute_step(TEXT("aag 0 0 0 0 0 1\n0\n"), TEXT(""), TEXT(""), 1, 0, ROOM);
    case 17: return aig_refute_certified(OF(ring), OF(certificate), OF(ring_proof), 0, ROOM);
    case 18: return aig_model_witness_certified(TEXT(STUCK), TEXT(STUCK), TEXT("v 1 2 0\n"), 0, ROOM);
    case 19: return aig_cut(OF(wraps), TEXT("f 4\nf 8\nr 6\n"), true, ROOM);
    default: exit(2);
    }
}

int main(int count, char **words)
{
    static const uint8_t empty[sizeof room];
    long done = 0, without = 0;
    if (count != 2)
        return 2;
    fill(&wraps, words[1], "wraps.aag");
    fill(&witness, words[1], "wraps.wit");
    fill(&proof, words[1], "wraps.drat");
    fill(&model, words[1], "wraps.model");
    fill(&ring, words[1], "ring.aag");
    fill(&certificate, words[1], "ring.cert.aag");
    fill(&ring_proof, words[1], "ring.drat");
    for (int number = 0; number < 20; number++) {
        refused = 1;
        do {
            memset(room, 0, sizeof room);
            length = 77;
            seen = 0;
            uint8_t status = call(number);
            int is_kept = length == 77 && !memcmp(room, empty, sizeof room);
            if (status != AIG_DONE && (status != AIG_NO_MEMORY || !is_kept)) {
                fprintf(stderr, "call %d, allocation %ld: status %d\n", number, refused, status);
                return 1;
            }
            done += status == AIG_DONE;
            without += status == AIG_NO_MEMORY;
        } while (seen >= refused++);
    }
    /* the message of a refusal may find no memory: the refusal stays */
    refused = seen = 0;
    aig_toaig(TEXT("aag"), true, ROOM);
    refused = seen;
    seen = 0;
    if (aig_toaig(TEXT("aag"), true, ROOM) != AIG_REFUSED || length != 0)
        return 1;
    printf("%ld done, %ld without memory\n", done, without);
    return 0;
}
