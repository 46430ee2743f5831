/* Holds include/fabrwent.h to the archive: every number of the enum is drawn from a call, the calls
 * on typed memories answer as the plain ones, and NULL with length 0 answers as an empty list.
 * It is C and C++ alike. Prints nothing and ends with 0 if all is so. */
#include "fabrwent.h"

#include <stdio.h>
#include <string.h>

static fabrwent_table table;
static fabrwent_machine machine, other;
static fabrwent_outputs outputs;
static int wrong = 0;

static void expect(const char *what, uint32_t number, uint32_t wanted)
{
    if (number != wanted) {
        printf("%s: number %u, not %u\n", what, (unsigned)number, (unsigned)wanted);
        wrong = 1;
    }
}

static uint32_t load(const char *listing)
{
    return fabrwent_table_load(&table, listing, strlen(listing)).number;
}

static uint32_t start(const char *listing, uint32_t allowance)
{
    expect("load", load(listing), FABRWENT_OK);
    return fabrwent_machine_start(&table, &machine, &outputs, allowance).number;
}

static uint32_t instant(uint64_t t, uint32_t input, size_t inputs, uint32_t allowance)
{
    const uint32_t value = 1;
    return fabrwent_machine_instant(&table, &machine, t, &input, &value, inputs, &outputs, allowance).number;
}

/* A look gives this present moment, and this moment as due (0: none). */
static void look_tells(const char *what, uint64_t moment, uint64_t due)
{
    const fabrwent_seen seen = fabrwent_machine_look(&table, &machine);
    expect(what, seen.number, FABRWENT_OK);
    expect(what, seen.moment == moment && seen.due == due && seen.due_known == (due != 0), 1);
}

static const char board[] = "P\t1\t1\nR\trr\t0\nW\t0\nS\t1\t#1\nA\t1\t#60000\t#0\nW\t1\nG\t0\n";

static void numbers_of_a_load(void)
{
    expect("a short table", fabrwent_load((const uint8_t *)board, strlen(board), table.words, FABRWENT_WORDS - 1).number, FABRWENT_TOO_SHORT);
    expect("out of form", load("P 1 1\n"), FABRWENT_FORM);
    expect("17 names", load("P\t0\t0\nR\t-\t17\nE\n"), FABRWENT_LIMIT);
    expect("no such name", load("P\t0\t0\nR\t-\t0\nW\t0\nE\n"), FABRWENT_NOT_THERE);
    expect("no end", load("P\t0\t0\nR\t-\t1\nW\t0\n"), FABRWENT_NO_END);
    expect("a listing", load(board), FABRWENT_OK);
}

static void numbers_of_an_instant(void)
{
    memset(&table, 0, sizeof table);
    expect("no table", fabrwent_machine_start(&table, &machine, &outputs, 10).number, FABRWENT_NO_TABLE);
    expect("the start", start(board, 10), FABRWENT_OK);
    look_tells("the start seen", 0, 0);
    expect("not after", instant(0, 0, 1, 10), FABRWENT_NOT_AFTER);
    expect("no such input", instant(5, 1, 1, 10), FABRWENT_INPUTS);
    expect("no allowance", instant(5, 0, 1, 0), FABRWENT_ALLOWANCE);
    expect("a press", instant(5, 0, 1, 10), FABRWENT_OK);
    expect("due before", instant(60006, 0, 0, 10), FABRWENT_DUE_BEFORE);
    other = machine;
    expect("alike", fabrwent_machines_alike(&table, &machine, &other).alike, 1);
    look_tells("a press seen", 5, 60005);
    expect("no step left", instant(60005, 0, 0, 1), FABRWENT_STOP_STEPS);
    expect("stopped", instant(60005, 0, 0, 10), FABRWENT_STOPPED);
    expect("a stopped machine seen", fabrwent_machine_look(&table, &machine).number, FABRWENT_STOPPED);
    memset(&machine, 255, sizeof machine);
    expect("no machine", instant(5, 0, 0, 10), FABRWENT_NO_MACHINE);
}

static void numbers_of_a_stop(void)
{
    expect("65 routines", start("P\t0\t0\nR\t-\t0\nF\t1\t1\t1\t1\t1\t1\t1\t1\nE\nR\t-\t1\nF\t2 0\t2 0\t2 0\t2 0\t2 0\t2 0\t2 0\t2 0\nE\nR\tr\t0\nW\t0\nE\n", 1000), FABRWENT_STOP_ROUTINES);
    expect("level 10", start("P\t0\t0\nR\t-\t0\nF\t0\nE\n", 1000), FABRWENT_STOP_LEVEL);
    expect("a delay of 0", start("P\t0\t0\nR\t-\t1\nA\t0\t#0\t#1\nE\n", 1000), FABRWENT_STOP_DELAY);
    expect("a board to the last moment", start("P\t1\t0\nR\tr\t1\nW\t0\nA\t1\t#1\t#1\nE\n", 1000), FABRWENT_OK);
    expect("past the last moment", instant(UINT64_MAX, 0, 1, 1000), FABRWENT_STOP_MOMENT);
    expect("a divisor of 0", start("P\t0\t0\nR\t-\t1\nS\t0\t#7 0 /\nE\n", 1000), FABRWENT_STOP_DIVISOR);
    expect("stopped by it", instant(5, 0, 0, 1000), FABRWENT_STOPPED);
    expect("a divisor of 0, before a delay of 0", start("P\t0\t0\nR\t-\t1\nA\t0\t#0\t#7 0 %\nE\n", 1000), FABRWENT_STOP_DIVISOR);
    expect("a divisor of 0, after the last step", start("P\t0\t0\nR\t-\t1\nG\t1\nU\t#7 0 /\t0\nE\n", 1), FABRWENT_STOP_STEPS);
}

static void null_with_nothing(void)
{
    uint32_t *none = NULL;
    expect("typed load of NULL", fabrwent_table_load(&table, NULL, 0).number, FABRWENT_FORM);
    expect("load of NULL", fabrwent_load(NULL, 0, table.words, FABRWENT_WORDS).number, FABRWENT_FORM);
    expect("load into NULL", fabrwent_load((const uint8_t *)board, strlen(board), none, 0).number, FABRWENT_TOO_SHORT);
    expect("start on NULL", fabrwent_start(none, 0, none, 0, none, 0, none, 0, 10).number, FABRWENT_TOO_SHORT);
    expect("instant on NULL", fabrwent_instant(none, 0, none, 0, 5, none, 0, none, 0, none, 0, none, 0, 10).number, FABRWENT_TOO_SHORT);
    expect("alike on NULL", fabrwent_alike(none, 0, none, 0, none, 0).number, FABRWENT_TOO_SHORT);
    expect("look on NULL", fabrwent_look(none, 0, none, 0).number, FABRWENT_TOO_SHORT);
    expect("the start", start(board, 10), FABRWENT_OK);
    expect("typed instant, inputs NULL", fabrwent_machine_instant(&table, &machine, 1, none, none, 0, &outputs, 10).number, FABRWENT_OK);
    expect("instant, inputs NULL", fabrwent_instant(table.words, FABRWENT_WORDS, machine.words, FABRWENT_WORDS, 2, none, 0, none, 0,
                                                    outputs.numbers, FABRWENT_OUTPUT_PLACES, outputs.values, FABRWENT_OUTPUT_PLACES, 10).number, FABRWENT_OK);
}

/* Lists a schedule's inputs from one moment up to another, into lists of so many places. */
static fabrwent_listed windows(const char *schedule, uint64_t from, uint64_t to, size_t places)
{
    static uint64_t moments[4];
    static uint32_t inputs[4], values[4];
    const fabrwent_listed r = fabrwent_windows((const uint8_t *)schedule, strlen(schedule), from, to, moments, places, inputs, places, values, places);
    if (r.listed == 2) {
        expect("six o'clock", moments[0] == 21600000 && inputs[0] == 3 && values[0] == 1, 1);
        expect("seven o'clock", moments[1] == 25200000 && inputs[1] == 3 && values[1] == 0, 1);
    }
    return r;
}

static void numbers_of_a_schedule(void)
{
    const char monday[] = "2024\t4\t1\n3\t1\t360\t420\n";
    expect("a day", windows(monday, 0, 86400000, 2).number, FABRWENT_OK);
    expect("its inputs", windows(monday, 0, 86400000, 2).listed == 2, 1);
    expect("short lists", windows(monday, 0, 86400000, 1).number, FABRWENT_TOO_SHORT);
    expect("29 February 2100", windows("2100\t2\t29\n", 0, 1, 0).number, FABRWENT_SCHEDULE);
    expect("no schedule", fabrwent_windows(NULL, 0, 0, 1, NULL, 0, NULL, 0, NULL, 0).number, FABRWENT_SCHEDULE);
}

int main(void)
{
    numbers_of_a_load();
    numbers_of_an_instant();
    numbers_of_a_stop();
    null_with_nothing();
    numbers_of_a_schedule();
    return wrong;
}
