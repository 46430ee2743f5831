/* fabrwent.h - the sparse synchronous engine of an orchard board.
 *
 * Load a listing into a table, start a machine on it, run it instant by instant.
 * docs/LISTING.md has the listing's form and every number; docs/LAYOUT.md the words
 * of the two memories. `tools/install PREFIX` installs the archive, this header and a
 * pkg-config file; `tools/build --library fabrwent` makes target/staticlib/libfabrwent.a alone.
 *
 * The parts of this header: version, lengths, numbers, results, the five calls, a page of
 * the valve book, a schedule's inputs, and the five calls on typed memories.
 *
 * PLATFORM. The kit compiles the archive for x86-64 Linux (System V calling
 * convention) and for nothing else: it links into no program for another processor.
 *
 * MEMORY. The caller owns all memory and lends it for the length of a call. The library
 * keeps no pointer after a call, has no state of its own, uses no heap and of the C
 * library at most memcpy, memmove and memset. What a machine is stands wholly in its
 * words: they may be copied, stored and given back later with the same table, at any
 * address.
 * - Every list is a pointer and its length, in words (a listing's in bytes). sizeof
 *   counts bytes: the typed memories below need no length. Words are aligned as uint32_t.
 * - No pointer may be null. For an empty list the archive takes NULL with length 0 as
 *   any other pointer: so it was found in every call (examples/c/header.c), but neither
 *   the language nor a proof promises it. The typed calls below may be given it.
 * - A memory that a call writes overlaps no other memory lent to that call, and nobody
 *   else reads or writes it meanwhile. Memories that a call only reads may overlap.
 * - Calls on different machines may run at the same time in different threads, also on
 *   one table, which is only read once it is loaded.
 * - Long enough is at least the length named below. Words past it are never touched.
 * - Any contents are safe. Words that no call of this library left are refused (6, 7),
 *   or are those of another table or machine and answer as that one.
 *
 * VALUES are signed, 32 bits, two's complement, held in uint32_t: read (int32_t)word.
 *
 * WHAT A CALL LEAVES.
 * - 0: as told at each function.
 * - 1 to 12 and 19, a refusal: all lent memory as it was; the other figures of the
 *   result 0.
 * - 13 to 18, a stop: the machine's first word is the number and its other 12,287 words
 *   are 0; the output lists as they were; the other figures of the result 0. Only a
 *   start makes a stopped machine run again.
 *
 * WHAT A CALL COSTS. Steps are counted and proved. Stack and time are measured, the
 * larger figure of two machines (AMD EPYC, Intel Xeon; docs/BENCHMARKS.md), and neither
 * is promised.
 *
 *              stack, bytes   time
 *     load        1,048       21 ns for each byte of the listing
 *     start       1,072       10 us on a full table, and its steps
 *     instant     2,488       28 us on a full table with 64 routines and 1,024 waiting
 *                             writes, and its steps
 *     alike       1,880       22 us for two such machines
 *     look      not measured; it puts the questions of an alike to one machine
 *     windows    20,584       24 us, 0.1 us for each line of the schedule and 2 ns for
 *                             each input listed (Intel Xeon, one run)
 *
 * A step takes 6 to 40 ns in the benchmark's loops without divisions, with expressions
 * of up to 73 pieces, 0.9 us if it writes a variable on which 49 routines wait four times
 * each, and 8 us if it evaluates an expression of 4,093 pieces without divisions. If
 * every sign divides it is 9 us, the most that was found (a chain of / in 4,091 pieces;
 * of % 8 us), measured on AMD EPYC, x86-64, alone. A call makes no more steps than its
 * allowance, so the allowance bounds its time: 10,000 such steps take 90 ms. The stack
 * does not depend on the contents: no function of the archive calls itself.
 */
#ifndef FABRWENT_H
#define FABRWENT_H

#include <stddef.h>
#include <stdint.h>

#ifdef __cplusplus
extern "C" {
#endif

/* ---- Version ---------------------------------------------------------------------- */

/* The version of this header. MAJOR rises if a program that links the library must
 * change, or if words stored by an older one may be refused or mean something else;
 * MINOR if something is added, or if the same calls on the same words may now answer
 * otherwise (1.3: an input drops the write that waits on its variable). The archive has
 * no version of its own: keep both of one installation. */
#define FABRWENT_VERSION_MAJOR 1
#define FABRWENT_VERSION_MINOR 4
#define FABRWENT_VERSION (FABRWENT_VERSION_MAJOR * 1000 + FABRWENT_VERSION_MINOR)

/* ---- Lengths ---------------------------------------------------------------------- */

/* The least lengths of the lent memories: a table and a machine in words of 32 bits,
 * each of the two output lists in places. */
#define FABRWENT_WORDS 12288
#define FABRWENT_TABLE_WORDS FABRWENT_WORDS
#define FABRWENT_MACHINE_WORDS FABRWENT_WORDS
#define FABRWENT_OUTPUT_PLACES 16
/* The longest listing that loads, in bytes, and the largest allowance of steps. */
#define FABRWENT_LISTING_BYTES 49152
#define FABRWENT_MOST_STEPS 1000000

/* ---- Numbers ---------------------------------------------------------------------- */

/* Each result has a number, which is 0 if the call went through, and a place, which is 0
 * but for numbers 2 to 5 of a load, where it is the line, from 1. The questions are put
 * in this order, but 18 after 13 and before 16, and the first no is the number. */
enum fabrwent_number {
    FABRWENT_OK = 0,
    /* every call: a lent memory is too short, or the two input lists are not equally long;
     * windows asks it after 19 */
    FABRWENT_TOO_SHORT = 1,
    /* load: a line of the listing is out of form */
    FABRWENT_FORM = 2,
    /* load: a limit is passed */
    FABRWENT_LIMIT = 3,
    /* load: a name, routine, jump or argument count points to nothing, or main is not as
     * stated */
    FABRWENT_NOT_THERE = 4,
    /* load: a routine has no line, or its last line is neither E nor G */
    FABRWENT_NO_END = 5,
    /* start, instant, alike, look: the table is none that a load leaves */
    FABRWENT_NO_TABLE = 6,
    /* instant, alike, look: the machine is neither stopped nor a state of the walk on this
     * table */
    FABRWENT_NO_MACHINE = 7,
    /* instant, alike, look: the machine is stopped */
    FABRWENT_STOPPED = 8,
    /* instant: t is not after the present moment */
    FABRWENT_NOT_AFTER = 9,
    /* instant: something is due before t */
    FABRWENT_DUE_BEFORE = 10,
    /* instant: the input numbers are not below the listing's inputs or not strictly rising */
    FABRWENT_INPUTS = 11,
    /* start, instant: the allowance is not 1 to 1,000,000 */
    FABRWENT_ALLOWANCE = 12,
    /* start, instant, while running: no step was left */
    FABRWENT_STOP_STEPS = 13,
    /* the same: a fork would make more than 64 routines live */
    FABRWENT_STOP_ROUTINES = 14,
    /* the same: a fork on level 10 */
    FABRWENT_STOP_LEVEL = 15,
    /* the same: a delay below 1 */
    FABRWENT_STOP_DELAY = 16,
    /* the same: a due moment of 2 to the 64 or more */
    FABRWENT_STOP_MOMENT = 17,
    /* the same: a divisor of 0 in an expression of S, A or U, whatever becomes of the
     * quotient */
    FABRWENT_STOP_DIVISOR = 18,
    /* windows: a line of the schedule is out of form, its input is 16 or more, or its date
     * or minute is none */
    FABRWENT_SCHEDULE = 19
};
/* The stops: from the first to the last of them. */
#define FABRWENT_FIRST_STOP FABRWENT_STOP_STEPS
#define FABRWENT_LAST_STOP FABRWENT_STOP_DIVISOR

/* ---- Results ---------------------------------------------------------------------- */

/* The result of a load: 0, 1, 2, 3, 4 or 5, and the line. */
typedef struct {
    uint32_t number;
    uint64_t place;
} fabrwent_loaded;

/* The result of a start or an instant. */
typedef struct {
    uint32_t number;
    uint32_t place;     /* 0 */
    uint32_t steps;     /* instructions reached in the instant */
    uint32_t listed;    /* output writes in the two lists, at most 16 */
    uint32_t due_known; /* 1 if a moment is due, else 0 */
    uint64_t due;       /* the next moment due; 0 if none is */
} fabrwent_ran;

/* The result of a comparison. */
typedef struct {
    uint32_t number;
    uint32_t place; /* 0 */
    uint32_t alike; /* 1 if the machines are alike, else 0 */
} fabrwent_compared;

/* The result of a look. */
typedef struct {
    uint32_t number;
    uint32_t place;     /* 0 */
    uint32_t due_known; /* 1 if a moment is due, else 0 */
    uint64_t moment;    /* the present moment; 0 for a refusal */
    uint64_t due;       /* the next moment due; 0 if none is */
} fabrwent_seen;

/* A compiler that lays the results out otherwise than the archive does is told here
 * (from C11 and C++11 on). */
#if defined(__cplusplus) && __cplusplus >= 201103L
#define FABRWENT_ASSERT(fact) static_assert(fact, #fact)
#elif !defined(__cplusplus) && defined(__STDC_VERSION__) && __STDC_VERSION__ >= 201112L
#define FABRWENT_ASSERT(fact) _Static_assert(fact, #fact)
#endif
#ifdef FABRWENT_ASSERT
FABRWENT_ASSERT(sizeof(void *) == 8 && sizeof(size_t) == 8);
FABRWENT_ASSERT(sizeof(fabrwent_loaded) == 16 && offsetof(fabrwent_loaded, place) == 8);
FABRWENT_ASSERT(sizeof(fabrwent_ran) == 32 && offsetof(fabrwent_ran, due_known) == 16 && offsetof(fabrwent_ran, due) == 24);
FABRWENT_ASSERT(sizeof(fabrwent_compared) == 12 && offsetof(fabrwent_compared, alike) == 8);
FABRWENT_ASSERT(sizeof(fabrwent_seen) == 32 && offsetof(fabrwent_seen, due_known) == 8 && offsetof(fabrwent_seen, moment) == 16 && offsetof(fabrwent_seen, due) == 24);
#endif

/* ---- The calls -------------------------------------------------------------------- */

/* Loads a listing. With 0 the table's first 12,288 words are the listing's, whatever
 * was there before; the listing is not needed any more. Questions 1 to 5. */
fabrwent_loaded fabrwent_load(const uint8_t *listing, size_t listing_bytes,
                              uint32_t *table, size_t table_words);

/* Starts a machine: the instant 0, with main newly called and no inputs. The machine's
 * old words do not matter. With 0 its first 12,288 words are the new machine, and the
 * first `listed` places of the two output lists hold the outputs written in the instant:
 * number (the name's number in main) and final value, rising by number; places after
 * them stay as they were. Questions 1, 6, 12; then 13 to 18 while it runs. */
fabrwent_ran fabrwent_start(const uint32_t *table, size_t table_words,
                            uint32_t *machine, size_t machine_words,
                            uint32_t *out_numbers, size_t out_numbers_places,
                            uint32_t *out_values, size_t out_values_places,
                            uint32_t allowance);

/* Makes the instant at moment t, in milliseconds from the start. t is after the present
 * moment, and not after the moment that the call before gave as due: the caller's clock
 * wakes it at `due`, or before that with inputs. The input lists hold number and value,
 * strictly rising by number; both empty if there is none. Writes due at t are made first;
 * then each input gives its variable the value and drops the write that waits on that
 * variable, so that `due` may be later than before, or none. A refused call drops
 * nothing, and an input does not save a call that comes after a moment due (10). Lists
 * and machine are left as by the start. Questions 1, 6 to 12; then 13 to 18 while it
 * runs. */
fabrwent_ran fabrwent_instant(const uint32_t *table, size_t table_words,
                              uint32_t *machine, size_t machine_words,
                              uint64_t t,
                              const uint32_t *in_numbers, size_t in_numbers_places,
                              const uint32_t *in_values, size_t in_values_places,
                              uint32_t *out_numbers, size_t out_numbers_places,
                              uint32_t *out_values, size_t out_values_places,
                              uint32_t allowance);

/* Says whether two running machines on one table are alike: equal present moments, and
 * equal values of all environment variables. Writes nothing; a and b may be one memory.
 * Questions 1, 6, then 7 for both machines, then 8 for both. */
fabrwent_compared fabrwent_alike(const uint32_t *table, size_t table_words,
                                 const uint32_t *a, size_t a_words,
                                 const uint32_t *b, size_t b_words);

/* Looks at a machine that was found, as after a power cut: the present moment, which is
 * the t of the last call with number 0 on it (0 after the start), and the next moment
 * due, as that call gave it. Writes nothing. Questions 1, 6, 7, 8. */
fabrwent_seen fabrwent_look(const uint32_t *table, size_t table_words,
                            const uint32_t *machine, size_t machine_words);

/* ---- A page of the valve book ------------------------------------------------------- */

/* From the lists of a session's writes: moment, output and value of
 * each, in the order in which the start and the instants listed them. A row is
 * 44 characters and a line feed: output number in 2 columns, a space, moment opened in
 * 20, a space, milliseconds open in 20, right-aligned; 20 hyphens if the valve is still
 * open. A valve is open while its value is not 0. docs/BOOK.md has the form. */
#define FABRWENT_PAGE_BYTES 2700

/* The result of a page. */
typedef struct {
    uint32_t number; /* 0, 1, 9 or 11 */
    uint32_t place;  /* 0 */
    uint64_t pages;  /* the number of pages, at least 1; 0 after a refusal */
} fabrwent_printed;

/* Writes a page, counted from 1, into the memory's first 2,700 bytes: a heading and 59
 * rows, by opening moment and then by output, the last page filled with rows of spaces.
 * Page 0 and pages past the last are 60 rows of spaces, with number 0. Bytes past 2,700
 * stay, and a refusal touches none. Questions, each put to the whole lists before the
 * next:
 *    1  the memory is shorter than 2,700 bytes, or the lists are not equally long
 *    9  a moment is before the one listed before it
 *   11  an output is 16 or more, or listed twice in one moment
 * Moments are aligned as uint64_t. The lists are only read and may overlap one another. */
fabrwent_printed fabrwent_page(const uint64_t *moments, size_t moments_places,
                               const uint32_t *outputs, size_t outputs_places,
                               const uint32_t *values, size_t values_places,
                               uint64_t page, uint8_t *memory, size_t memory_bytes);

/* ---- The inputs of a schedule ------------------------------------------------------- */

/* A schedule is lines in the listing's style: first year, month and day on which moment 0
 * is midnight, then a line for each weekly window: input, weekday (1 Monday to 7), opening
 * and closing minute of the day. docs/SCHEDULE.md has the form. */

/* The result of windows. */
typedef struct {
    uint32_t number; /* 0, 1 or 19 */
    uint32_t place;  /* 0; `schedule_trace` names the line */
    uint64_t listed; /* how many inputs are listed; 0 after a refusal */
} fabrwent_listed;

/* Lists the inputs of the moments from `from` on and before `to`, by moment and then by
 * input: 1 where the windows of an input begin, 0 where they end. Windows that touch or
 * overlap are one, over midnight and from Sunday to Monday too. Moment 0 has none: an
 * input that is open there gets no 1. If `to` is not after `from`, none are listed. Each
 * moment's inputs can be given to an instant as they stand. Places past the listed ones
 * stay, and a refusal touches none. Questions:
 *   19  a line has not its form, or its date, input, weekday or minute is none
 *    1  a list has fewer places than there are inputs in the span
 * Any span returns as soon: a long one is counted by its weeks. Moments are aligned as
 * uint64_t. The schedule is only read. The stack grows by some 20 kB, more than in any
 * other call: a week has a bit for every minute and input. */
fabrwent_listed fabrwent_windows(const uint8_t *schedule, size_t schedule_bytes,
                                 uint64_t from, uint64_t to,
                                 uint64_t *moments, size_t moments_places,
                                 uint32_t *inputs, size_t inputs_places,
                                 uint32_t *values, size_t values_places);

/* ---- The same calls on typed memories --------------------------------------------- */

/* A table, a machine and the outputs of an instant, each of its own type: bytes are not
 * taken for words, nor a machine for a table, and no length is given. A variable of these
 * types is memory as the calls above want it: `.words` and FABRWENT_WORDS, `.numbers` or
 * `.values` and FABRWENT_OUTPUT_PLACES. */
typedef struct {
    uint32_t words[FABRWENT_WORDS];
} fabrwent_table;

typedef struct {
    uint32_t words[FABRWENT_WORDS];
} fabrwent_machine;

typedef struct {
    uint32_t numbers[FABRWENT_OUTPUT_PLACES];
    uint32_t values[FABRWENT_OUTPUT_PLACES];
} fabrwent_outputs;

/* Each is the call above, on the whole of what it is given; never answers 1. The listing
 * may be NULL if it has 0 bytes, the inputs if there are 0. The other pointers are never
 * null. In C, and so not proved; they hand their arguments on. */
static inline fabrwent_loaded fabrwent_table_load(fabrwent_table *table, const void *listing, size_t listing_bytes)
{
    const uint8_t none = 0;
    return fabrwent_load(listing_bytes == 0 ? &none : (const uint8_t *)listing, listing_bytes, table->words, FABRWENT_WORDS);
}

static inline fabrwent_ran fabrwent_machine_start(const fabrwent_table *table, fabrwent_machine *machine,
                                                  fabrwent_outputs *outputs, uint32_t allowance)
{
    return fabrwent_start(table->words, FABRWENT_WORDS, machine->words, FABRWENT_WORDS,
                          outputs->numbers, FABRWENT_OUTPUT_PLACES, outputs->values, FABRWENT_OUTPUT_PLACES, allowance);
}

static inline fabrwent_ran fabrwent_machine_instant(const fabrwent_table *table, fabrwent_machine *machine, uint64_t t,
                                                    const uint32_t *in_numbers, const uint32_t *in_values, size_t inputs,
                                                    fabrwent_outputs *outputs, uint32_t allowance)
{
    const uint32_t none = 0;
    return fabrwent_instant(table->words, FABRWENT_WORDS, machine->words, FABRWENT_WORDS, t,
                            inputs == 0 ? &none : in_numbers, inputs, inputs == 0 ? &none : in_values, inputs,
                            outputs->numbers, FABRWENT_OUTPUT_PLACES, outputs->values, FABRWENT_OUTPUT_PLACES, allowance);
}

static inline fabrwent_compared fabrwent_machines_alike(const fabrwent_table *table, const fabrwent_machine *a,
                                                        const fabrwent_machine *b)
{
    return fabrwent_alike(table->words, FABRWENT_WORDS, a->words, FABRWENT_WORDS, b->words, FABRWENT_WORDS);
}

static inline fabrwent_seen fabrwent_machine_look(const fabrwent_table *table, const fabrwent_machine *machine)
{
    return fabrwent_look(table->words, FABRWENT_WORDS, machine->words, FABRWENT_WORDS);
}

#ifdef FABRWENT_ASSERT
FABRWENT_ASSERT(sizeof(fabrwent_table) == 4 * FABRWENT_WORDS && sizeof(fabrwent_machine) == 4 * FABRWENT_WORDS);
FABRWENT_ASSERT(sizeof(fabrwent_outputs) == 8 * FABRWENT_OUTPUT_PLACES);
#endif

#ifdef __cplusplus
}
#endif

#endif
