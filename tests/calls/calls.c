/* Calls the library as a C program does: calls EXAMPLES TIMES. Each call once with a result that is known and once with
   an input that is refused, and with rooms that are too small; all of them TIMES times, first alone and then in two
   threads at once. It stops at the first answer that is wrong. */
#include "aig.h"
#include "wanted.h"
#include <pthread.h>

/* a latch that keeps its value, and is bad if it is 1: no certificate of itself */
#define STUCK "aag 1 0 1 0 0 1\n2 2 1\n2\n"

static struct file wraps, witness, proof, model, ring, certificate, ring_proof;

static int begins(const uint8_t *room, size_t length, const char *text)
{
    return length > strlen(text) && !memcmp(room, text, strlen(text));
}

static void circuits(void)
{
    uint8_t room[2048], small[8] = "as it is";
    size_t length = 77;
    WANT(aig_version(small, sizeof AIG_VERSION - 2, &length) == AIG_NO_ROOM);
    WANT(length == 77 && !memcmp(small, "as it is", 8));
    WANT(aig_version(ROOM) == AIG_DONE && says(room, length, AIG_VERSION));
    length = 77;
    WANT(aig_toaig(OF(wraps), true, small, sizeof small, &length) == AIG_NO_ROOM);
    WANT(length == 77 && !memcmp(small, "as it is", 8));
    WANT(aig_toaig(TEXT(""), true, small, 4, &length) == AIG_REFUSED && length == 0 && !memcmp(small, "as it is", 8));
    WANT(aig_toaig(OF(wraps), true, ROOM) == AIG_DONE && begins(room, length, "aig 9 1 2 0 6 1\n"));
    WANT(aig_toaig(room, length, false, room + 1024, 1024, &length) == AIG_DONE);
    WANT(begins(room + 1024, length, "aag 9 1 2 0 6 1\n2\n4 "));
    WANT(aig_toaig(wraps.bytes, wraps.length - 140, true, ROOM) == AIG_REFUSED);
    WANT(says(room, length, "circuit: text at 60"));
    WANT(aig_info(OF(wraps), ROOM) == AIG_DONE && begins(room, length, "format aag\nvariables 9\ninputs 1\n"));
    WANT(aig_info(TEXT("aag 0 0 0 0 0 0 0 0 0 0\n"), ROOM) == AIG_REFUSED && begins(room, length, "circuit: "));
    WANT(aig_names(OF(wraps), ROOM) == AIG_DONE);
    WANT(says(room, length, "i 0 2 enable\nl 0 4 count[0]\nl 1 6 count[1]\nb 0 14 wraps\n"));
    WANT(aig_names(TEXT("aag 1 0 1 0 0\n2 3 4\n"), ROOM) == AIG_REFUSED && begins(room, length, "circuit: "));
    WANT(aig_unroll(TEXT("aag 2 1 1 1 0\n2\n4 2\n4\n"), 3, false, ROOM) == AIG_DONE);
    WANT(says(room, length, "aag 3 3 0 3 0\n2\n4\n6\n0\n2\n4\n"));
    WANT(aig_unroll(OF(wraps), 0, false, ROOM) == AIG_REFUSED && begins(room, length, "unroll: "));
    WANT(aig_cut(TEXT("aag 1 0 1 0 0 1\n2 3\n2\n"), TEXT("r 2\nf 2\n"), false, ROOM) == AIG_DONE);
    WANT(says(room, length, "aag 2 1 1 0 0 1\n4\n2 4 2\n2\n"));
    WANT(aig_cut(OF(wraps), TEXT("f 4\nf 3\n"), true, ROOM) == AIG_REFUSED && says(room, length, "cuts: line 2"));
    WANT(aig_strengthen(OF(ring), OF(certificate), 0, false, ROOM) == AIG_DONE && begins(room, length, "aag "));
    WANT(aig_strengthen(OF(ring), OF(certificate), 1, false, ROOM) == AIG_REFUSED);
    WANT(says(room, length, "strengthen: property"));
}

static void runs(void)
{
    uint8_t room[2048], found[512];
    size_t length, found_length;
    bool confirmed = false;
    WANT(aig_check(OF(wraps), OF(witness), ROOM, &confirmed) == AIG_DONE && confirmed);
    WANT(says(room, length, "confirmed\n"));
    WANT(aig_check(OF(wraps), witness.bytes, 2, ROOM, &confirmed) == AIG_REFUSED && confirmed);
    WANT(says(room, length, "witness: text"));
    WANT(aig_check(OF(wraps), TEXT("1\nb0\n00\n1\n.\n"), ROOM, &confirmed) == AIG_DONE && !confirmed);
    WANT(says(room, length, "not bad\n"));
    WANT(aig_check(OF(wraps), OF(witness), room, 9, &length, &confirmed) == AIG_NO_ROOM && !confirmed && length == 8);
    WANT(aig_witness(OF(wraps), TEXT("1\n1\n0\n1\n1\n"), 0, found, sizeof found, &found_length) == AIG_DONE);
    WANT(says(found, found_length, "1\nb0\n00\n1\n1\n0\n1\n1\n.\n"));
    WANT(aig_witness(OF(wraps), TEXT("1\n0\n"), 0, ROOM) == AIG_REFUSED && says(room, length, "witness: no run"));
    WANT(aig_reduce(OF(wraps), found, found_length, ROOM, &confirmed) == AIG_DONE && confirmed);
    WANT(says(room, length, "1\nb0\n00\n1\n1\n0\n1\n1\n.\n"));
    WANT(aig_reduce(OF(wraps), TEXT("1\nb0\n00\n1\n.\n"), ROOM, &confirmed) == AIG_DONE && !confirmed);
    WANT(says(room, length, "not bad\n"));
    WANT(aig_reduce(OF(wraps), TEXT("1\nb1\n00\n1\n.\n"), ROOM, &confirmed) == AIG_REFUSED && !confirmed);
    WANT(aig_wave_witness(OF(wraps), OF(witness), ROOM) == AIG_DONE && begins(room, length, "$"));
    WANT(aig_wave_witness(OF(wraps), TEXT(""), ROOM) == AIG_REFUSED && says(room, length, "witness: text"));
    WANT(aig_bench(OF(wraps), TEXT("1\n1\n1\n1\n"), TEXT("v 3 4\ns 0 0 x\nv 3 4\nv 9 4\n"), ROOM) == AIG_DONE);
    WANT(says(room, length, "1\nok\nx\nno 6\n"));
    WANT(aig_bench(OF(wraps), TEXT("11\n"), TEXT(""), ROOM) == AIG_REFUSED && begins(room, length, "stimulus: "));
    WANT(aig_bench(OF(wraps), TEXT("1\n"), TEXT("v 0 4\n"), room, 1, &length) == AIG_NO_ROOM);
}

static void solving(void)
{
    uint8_t room[8192], run[512];
    size_t length, run_length;
    bool confirmed = false;
    WANT(aig_cnf(OF(wraps), 4, 0, false, ROOM) == AIG_DONE && begins(room, length, "c "));
    WANT(aig_cnf(OF(wraps), 4, 0, true, ROOM) == AIG_DONE && begins(room, length, "c "));
    WANT(aig_cnf(OF(wraps), 4, 1, false, ROOM) == AIG_REFUSED && says(room, length, "cnf: property"));
    WANT(aig_cnf_alive(OF(wraps), 4, ROOM) == AIG_DONE && begins(room, length, "c "));
    WANT(aig_cnf_alive(OF(wraps), 0, ROOM) == AIG_REFUSED && begins(room, length, "cnf: "));
    WANT(aig_cnf_certified(OF(ring), OF(certificate), 0, ROOM) == AIG_DONE && begins(room, length, "c "));
    WANT(aig_cnf_certified(OF(ring), OF(certificate), 1, ROOM) == AIG_REFUSED && says(room, length, "cnf: property"));
    WANT(aig_model_witness(OF(wraps), OF(model), 4, 0, false, run, sizeof run, &run_length) == AIG_DONE);
    WANT(aig_check(OF(wraps), run, run_length, ROOM, &confirmed) == AIG_DONE && confirmed);
    WANT(aig_model_witness(OF(wraps), TEXT("v x\n"), 4, 0, true, ROOM) == AIG_REFUSED);
    WANT(begins(room, length, "model: "));
    WANT(aig_model_witness_certified(OF(ring), OF(certificate), TEXT("s UNSATISFIABLE\n"), 0, ROOM) == AIG_REFUSED);
    WANT(says(room, length, "model: unsatisfiable"));
    WANT(aig_model_witness_certified(TEXT(STUCK), TEXT(STUCK), TEXT("v 1 2 0\n"), 0, ROOM) == AIG_DONE);
    WANT(says(room, length, "1\nb0\n1\n\n.\n"));
    WANT(aig_refute(OF(wraps), OF(proof), 3, 0, ROOM) == AIG_DONE && says(room, length, "unreachable within 3\n"));
    WANT(aig_refute(OF(wraps), OF(proof), 4, 0, ROOM) == AIG_REFUSED && says(room, length, "proof: step 1"));
    WANT(aig_refute(OF(wraps), OF(proof), 3, 1, ROOM) == AIG_REFUSED && says(room, length, "cnf: property"));
    WANT(aig_refute(OF(wraps), OF(proof), 3, 0, room, 20, &length) == AIG_NO_ROOM);
    WANT(aig_refute(OF(wraps), OF(proof), 3, 0, room, 21, &length) == AIG_DONE && length == 21);
    WANT(aig_refute_step(OF(wraps), OF(proof), OF(proof), 3, 0, ROOM) == AIG_REFUSED);
    WANT(says(room, length, "step proof: step 1"));
    /* the bad state is the constant 0, and the constraint 0 is never kept */
    WANT(aig_refute_step(TEXT("aag 0 0 0 0 0 1\n0\n"), TEXT(""), TEXT(""), 1, 0, ROOM) == AIG_DONE);
    WANT(says(room, length, "unreachable\n"));
    WANT(aig_refute_alive(TEXT("aag 0 0 0 0 0 0 1\n0\n"), TEXT(""), 5, ROOM) == AIG_DONE);
    WANT(says(room, length, "no run of 5 frames\n"));
    WANT(aig_refute_alive(OF(wraps), OF(proof), 3, ROOM) == AIG_REFUSED && begins(room, length, "proof: "));
    WANT(aig_refute_certified(OF(ring), OF(certificate), OF(ring_proof), 0, ROOM) == AIG_DONE);
    WANT(says(room, length, "unreachable\n"));
    WANT(aig_refute_certified(OF(ring), TEXT("aag"), OF(ring_proof), 0, ROOM) == AIG_REFUSED);
    WANT(begins(room, length, "certificate: "));
}

static void *all(void *times)
{
    for (long count = 0; count < *(long *)times; count++) {
        circuits();
        runs();
        solving();
    }
    return NULL;
}

int main(int count, char **words)
{
    WANT(count == 3);
    wraps = contents(words[1], "wraps.aag");
    witness = contents(words[1], "wraps.wit");
    proof = contents(words[1], "wraps.drat");
    model = contents(words[1], "wraps.model");
    ring = contents(words[1], "ring.aag");
    certificate = contents(words[1], "ring.cert.aag");
    ring_proof = contents(words[1], "ring.drat");
    long times = atol(words[2]);
    all(&times);
    pthread_t threads[2];
    for (int one = 0; one < 2; one++)
        WANT(!pthread_create(&threads[one], NULL, all, &times));
    for (int one = 0; one < 2; one++)
        WANT(!pthread_join(threads[one], NULL));
    struct file *files[] = {&wraps, &witness, &proof, &model, &ring, &certificate, &ring_proof};
    for (size_t one = 0; one < sizeof files / sizeof *files; one++)
        free(files[one]->bytes);
    puts("as wanted");
    return 0;
}
