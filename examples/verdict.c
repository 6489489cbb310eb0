/* Checks a witness of a circuit: verdict CIRCUIT WITNESS. It prints the line of the verdict, or why a file is refused.
   The status is 0 if the witness is confirmed: then its run reaches the bad state of the circuit.
   To build it: cc verdict.c $(pkg-config --cflags --libs aig) -o verdict */
#include <aig.h>
#include <stdio.h>
#include <stdlib.h>

static uint8_t *contents(const char *name, size_t *length)
{
    FILE *file = fopen(name, "rb");
    long end = file && !fseek(file, 0, SEEK_END) ? ftell(file) : -1;
    uint8_t *bytes = end < 0 ? NULL : malloc(end + 1);
    if (!bytes || fseek(file, 0, SEEK_SET) || fread(bytes, 1, end, file) != (size_t)end) {
        fprintf(stderr, "%s cannot be read\n", name);
        exit(2);
    }
    fclose(file);
    *length = end;
    return bytes;
}

int main(int count, char **names)
{
    uint8_t room[256];
    size_t circuit_length, witness_length, length = 0;
    bool confirmed = false;
    if (count != 3)
        return 2;
    uint8_t *circuit = contents(names[1], &circuit_length), *witness = contents(names[2], &witness_length);
    uint8_t status = aig_check(circuit, circuit_length, witness, witness_length, room, sizeof room, &length,
                               &confirmed);
    printf("%.*s%s", (int)length, (const char *)room, status == AIG_DONE ? "" : "\n");
    free(circuit);
    free(witness);
    return status == AIG_DONE && confirmed ? 0 : 1;
}
