/* Sets an input of a circuit at the last of its frames, and prints how often a literal is 1: live CIRCUIT ROWS LITERAL.
   It is C and C++. To build it: cc live.c $(pkg-config --cflags --libs aig) -o live */
#include <aig.h>
#include <stdio.h>

static uint8_t circuit[1 << 20], rows[1 << 20], room[256];

static size_t contents(const char *name, uint8_t *bytes)
{
    FILE *file = fopen(name, "rb");
    size_t length = file ? fread(bytes, 1, 1 << 20, file) : 0;
    if (file)
        fclose(file);
    return length;
}

int main(int count, char **words)
{
    struct aig_live bench = AIG_LIVE_NONE;
    struct aig_sizes sizes = {0, 0, 0, 0, 0, 0};
    struct aig_report report = {0, 0};
    unsigned literal;
    size_t length = 0;
    if (count != 4 || sscanf(words[3], "%u", &literal) != 1)
        return 2;
    if (aig_live_open(circuit, contents(words[1], circuit), rows, contents(words[2], rows), &bench, room, sizeof room,
                      &length) != AIG_DONE) {
        printf("%.*s\n", (int)length, (const char *)room);
        return 1;
    }
    aig_live_sizes(&bench, &sizes);
    uint8_t status = aig_live_set(&bench, sizes.frames - 1, 0, 1, &report);
    printf("set: %d, %d evaluated, %d changed\n", status, (int)report.evaluated, (int)report.changed);
    int ones = 0;
    for (uint32_t frame = 0; frame < sizes.frames; frame++) {
        uint8_t value = 0;
        ones += aig_live_value(&bench, frame, literal, &value) == AIG_LIVE_OK && value == 1;
    }
    printf("%u is 1 at %d of %u frames\n", literal, ones, sizes.frames);
    return aig_live_close(&bench);
}
