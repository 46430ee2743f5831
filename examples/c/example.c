/* Loads listing A of document 01, starts it, presses at 5000 and waits for what is due:
 * a press opens output 1 for a minute. Prints what a session prints. */
#include "fabrwent.h"

#include <inttypes.h>
#include <stdio.h>
#include <string.h>

static const char listing[] =
    "P\t1\t1\n"
    "R\trr\t0\n"
    "W\t0\n"
    "S\t1\t#1\n"
    "A\t1\t#60000\t#0\n"
    "W\t1\n"
    "G\t0\n";

/* All memory is ours; the library is lent it call by call. */
static fabrwent_table table;
static fabrwent_machine machine;
static fabrwent_outputs outputs;

enum { ALLOWANCE = 10000 };

static int show(const char *call, uint64_t t, fabrwent_ran ran)
{
    if (ran.number != FABRWENT_OK) {
        printf("%s at %" PRIu64 ": number %" PRIu32 "\n", call, t, ran.number);
        return 0;
    }
    for (uint32_t k = 0; k < ran.listed; k++) {
        printf("O\t%" PRIu64 "\t%" PRIu32 "\t%" PRId32 "\n", t, outputs.numbers[k], (int32_t)outputs.values[k]);
    }
    return 1;
}

int main(void)
{
    fabrwent_loaded loaded = fabrwent_table_load(&table, listing, strlen(listing));
    if (loaded.number != FABRWENT_OK) {
        printf("load: number %" PRIu32 " at line %" PRIu64 "\n", loaded.number, loaded.place);
        return 1;
    }
    fabrwent_ran ran = fabrwent_machine_start(&table, &machine, &outputs, ALLOWANCE);
    if (!show("start", 0, ran)) {
        return 1;
    }
    const uint32_t press_number[] = {0};
    const uint32_t press_value[] = {1};
    uint64_t t = 5000;
    ran = fabrwent_machine_instant(&table, &machine, t, press_number, press_value, 1, &outputs, ALLOWANCE);
    if (!show("instant", t, ran)) {
        return 1;
    }
    while (ran.due_known) {
        t = ran.due;
        ran = fabrwent_machine_instant(&table, &machine, t, NULL, NULL, 0, &outputs, ALLOWANCE);
        if (!show("instant", t, ran)) {
            return 1;
        }
    }
    printf("X\t0\t%" PRIu64 "\n", t);
    return 0;
}
