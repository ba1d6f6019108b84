/* A garage with three feeders: two of four bays and one of six. Each car gets what it asks for, but at most a share: its feeder's limit
 * divided by the bays on that feeder, to the nearest ampere. The plan, in the file named, is checked, translated and run; the amperes of
 * the fourteen bays are printed.
 *
 *   garage garage.plan */
#include <stdio.h>

#include "vazhdumir.h"

/* The limits of the two feeders of four bays, what their eight cars ask for, the limit of the feeder of six, what its cars ask for. */
static const int32_t INPUTS[] = {63, 42, 32, 11, 16, 0, 7, 20, 10, 6, 64, 16, 16, 5, 32, 16, 0};

/* A byte more than a plan may have, so that a longer file is refused. */
enum { INPUT_CELLS = sizeof INPUTS / sizeof INPUTS[0], BAYS = 14, PLAN_BYTES = 4097 };

static int refused(const char *what, uint64_t answer) {
    if (vazhdumir_refusal(answer) == 0) return 0;
    printf("%s: no,%u,%llu\n", what, vazhdumir_refusal(answer), (unsigned long long)vazhdumir_value(answer));
    return 1;
}

static void put_cell(uint8_t *store, size_t cell, int32_t value) {
    uint32_t bits = (uint32_t)value;
    for (int i = 0; i < 4; i++) store[4 * cell + i] = (uint8_t)(bits >> (8 * i));
}

static int32_t cell_of(const uint8_t *store, size_t cell) {
    uint32_t bits = 0;
    for (int i = 0; i < 4; i++) bits |= (uint32_t)store[4 * cell + i] << (8 * i);
    return (int32_t)bits;
}

/* The bytes of a file; none where it cannot be opened. */
static size_t read_plan(const char *path, uint8_t *plan) {
    FILE *file = fopen(path, "rb");
    if (file == NULL) return 0;
    size_t bytes = fread(plan, 1, PLAN_BYTES, file);
    fclose(file);
    return bytes;
}

int main(int words, char **arguments) {
    static uint8_t plan[PLAN_BYTES], loops[65536], store[4 * 16384];
    size_t plan_bytes = words > 1 ? read_plan(arguments[1], plan) : 0;
    uint64_t checked = vazhdumir_check_plan(plan, plan_bytes);
    if (refused("plan", checked)) return 1;
    uint64_t bytes = vazhdumir_translate(plan, plan_bytes, loops, sizeof loops);
    if (refused("translation", bytes)) return 1;
    uint64_t need = vazhdumir_need(loops, bytes);
    if (refused("need", need)) return 1;
    for (size_t i = 0; i < INPUT_CELLS; i++) put_cell(store, i, INPUTS[i]);
    uint64_t writes = vazhdumir_run(loops, bytes, 2, store, sizeof store);
    if (refused("run", writes)) return 1;
    printf("loops of %llu bytes, %llu cells, %llu writes\n", (unsigned long long)bytes, (unsigned long long)need,
           (unsigned long long)writes);
    for (size_t bay = 0; bay < BAYS; bay++) printf("bay %2zu: %2d A\n", bay + 1, cell_of(store, INPUT_CELLS + bay));
    return 0;
}
