/*
 * A small viewer over the store, in C.
 *
 *     viewer <FILE
 *
 * It reads failures from standard input, one to a line: `chain position fails`, three decimal numbers with blanks
 * between them. Each goes to the store as it comes: a new cell is added, and a cell that is held already gets the fails
 * added to its count, which stops at 4294967295. After every LINES_PER_CALL lines it makes one walk call and prints the
 * cells that this hands out, so that a walk is under way while failures still arrive and the table grows. At the end of
 * the input it carries the walk to its end, and then prints all cells once more, by a careful pass.
 *
 * It also watches what it is handed. No cell is deleted here and the table only grows, so a walk must hand out each
 * cell that was held when it began, and none twice. The careful pass must hand out each cell exactly once.
 *
 * Status 0: all lines were taken. 1: something was said on standard error: a line that was not taken, input or output
 * that failed, or an answer that should not have come. 2: wrong use.
 */
#include "suspects.h"

#include <errno.h>
#include <inttypes.h>
#include <stdarg.h>
#include <stdbool.h>
#include <stdio.h>
#include <stdlib.h>
#include <string.h>

/* How many cells the store can hold, 1 to SUSPECTS_MOST_CAPACITY. */
#ifndef VIEWER_CAPACITY
#define VIEWER_CAPACITY SUSPECTS_MOST_CAPACITY
#endif

enum { FIRST_SIZE = 4, LINES_PER_CALL = 3, LINE_ROOM = 128 };

/* The memory of a store, and the store in it. */
struct memory {
    uint8_t state[SUSPECTS_STATE_BYTES];
    uint8_t first[SUSPECTS_BUCKET_BYTES_FOR(VIEWER_CAPACITY)];
    uint8_t second[SUSPECTS_BUCKET_BYTES_FOR(VIEWER_CAPACITY)];
    uint8_t entries[SUSPECTS_ENTRY_BYTES_FOR(VIEWER_CAPACITY)];
};

#define STORE_IN(m)                                                                                                    \
    {                                                                                                                  \
        (m).state, sizeof(m).state, (m).first, sizeof(m).first, (m).second, sizeof(m).second, (m).entries,             \
            sizeof(m).entries                                                                                          \
    }

/* The suspect cells, each with its fails. */
static struct memory cells_memory;
static const struct suspects cells = STORE_IN(cells_memory);

/*
 * The viewer's own notes on the same cells, in a second store. Walks are numbered from 1, and the careful pass has the
 * number behind the last one. The note of a cell is twice the number of the last walk that had begun when it arrived;
 * and once it has been handed out, twice the number of the last walk that did so, plus one.
 */
static struct memory notes_memory;
static const struct suspects notes = STORE_IN(notes_memory);

static uint8_t answer[SUSPECTS_ANSWER_BYTES];
static uint8_t list[SUSPECTS_LIST_BYTES_FOR(VIEWER_CAPACITY)];

/* The walk that began last. With cursor 0 it has ended, or none has begun. */
static struct {
    uint32_t number, cursor, calls, cells, first_size;
} walk;

/* The line read last, counted from 1; and whether anything was said on standard error. */
static unsigned long line_number;
static bool complained;

static void complain(const char *format, ...)
{
    va_list arguments;
    fflush(stdout);
    fputs("viewer: ", stderr);
    va_start(arguments, format);
    vfprintf(stderr, format, arguments);
    va_end(arguments);
    fputc('\n', stderr);
    complained = true;
}

static void complain_of_cell(uint32_t key, const char *what)
{
    complain("line %lu: cell %u %u %s", line_number, suspects_chain(key), suspects_position(key), what);
}

/* Any other answer cannot come, unless this program is wrong or something else wrote to the memory. */
static void expect_done(const char *call, uint32_t number)
{
    if (number == SUSPECTS_DONE) return;
    complain("line %lu: %s answered %" PRIu32 ", %s", line_number, call, number, suspects_number_name(number));
    exit(1);
}

/* ---- The calls, as this program needs them ---- */

static uint32_t field(const struct suspects *store, int at) { return suspects_get32(store->state + at); }

static void start(const struct suspects *store)
{
    expect_done("suspects_init",
                suspects_init(SUSPECTS_LENT(*store), answer, sizeof answer, VIEWER_CAPACITY, FIRST_SIZE));
}

/* Whether a key is held; then also its value. */
static bool find(const struct suspects *store, uint32_t key, uint32_t *value)
{
    uint32_t number = suspects_find(SUSPECTS_LENT(*store), answer, sizeof answer, key);
    if (number == SUSPECTS_ABSENT) return false;
    expect_done("suspects_find", number);
    *value = suspects_get32(answer);
    return true;
}

static void update(const struct suspects *store, uint32_t key, uint32_t value)
{
    expect_done("suspects_update", suspects_update(SUSPECTS_LENT(*store), answer, sizeof answer, key, value));
}

/* Adds a key that is not held; false where the store is full. */
static bool add(const struct suspects *store, uint32_t key, uint32_t value)
{
    uint32_t number = suspects_add(SUSPECTS_LENT(*store), answer, sizeof answer, key, value);
    if (number == SUSPECTS_FULL) return false;
    expect_done("suspects_add", number);
    return true;
}

/* Hands out the next bucket of a pass to the list, and says how many keys it has: 0 when none is left. */
static uint32_t iterate(const struct suspects *store, uint32_t *place)
{
    expect_done("suspects_iterate",
                suspects_iterate(SUSPECTS_LENT(*store), list, sizeof list, answer, sizeof answer, *place));
    *place = suspects_get32(answer);
    return suspects_get32(answer + 4);
}

/* ---- What is handed out ---- */

static void note_handed_out(uint32_t key)
{
    uint32_t note, handed_out = 2 * walk.number + 1;
    if (!find(&notes, key, &note))
        complain_of_cell(key, "was handed out, and never came in");
    else if (note == handed_out)
        complain_of_cell(key, "was handed out twice");
    else
        update(&notes, key, handed_out);
}

/* Prints the first cells of the list, each with its fails. */
static void show(const char *by, uint32_t count)
{
    for (const uint8_t *pair = list; count > 0; pair += 8, count--) {
        uint32_t key = suspects_get32(pair);
        printf("%s: %u %u %" PRIu32 "\n", by, suspects_chain(key), suspects_position(key), suspects_get32(pair + 4));
        note_handed_out(key);
        walk.cells++;
    }
}

/* Looks through the notes for cells that came in before the walk began, and that it has not handed out. A plain pass
   will do for that: nothing else is done to the notes meanwhile. */
static void look_for_missed(void)
{
    uint32_t place = 0, count;
    uint64_t fingerprint;
    expect_done("suspects_begin_iterator", suspects_begin_iterator(SUSPECTS_LENT(notes), answer, sizeof answer));
    fingerprint = suspects_get64(answer);
    while ((count = iterate(&notes, &place)) > 0)
        for (const uint8_t *pair = list; count > 0; pair += 8, count--)
            if (suspects_get32(pair + 4) < 2 * walk.number) complain_of_cell(suspects_get32(pair), "was missed");
    expect_done("suspects_end_iterator",
                suspects_end_iterator(SUSPECTS_LENT(notes), answer, sizeof answer, fingerprint));
}

static void begin_walk(void)
{
    walk.number++;
    walk.calls = 0;
    walk.cells = 0;
    walk.first_size = field(&cells, SUSPECTS_AT_OLD_SIZE);
}

static void end_walk(void)
{
    look_for_missed();
    printf("walk %" PRIu32 " ends: %" PRIu32 " cells in %" PRIu32 " calls; the table had %" PRIu32
           " buckets, and has %" PRIu32 "\n",
           walk.number, walk.cells, walk.calls, walk.first_size, field(&cells, SUSPECTS_AT_OLD_SIZE));
}

/* One walk call. It begins a walk where none is under way. */
static void walk_on(void)
{
    if (walk.cursor == 0) begin_walk();
    expect_done("suspects_scan",
                suspects_scan(SUSPECTS_LENT(cells), list, sizeof list, answer, sizeof answer, walk.cursor));
    walk.cursor = suspects_get32(answer);
    walk.calls++;
    show("walk", suspects_get32(answer + 4));
    if (walk.cursor == 0) end_walk();
}

static void careful_pass(void)
{
    uint32_t place = 0, count, held;
    begin_walk();
    expect_done("suspects_begin_safe", suspects_begin_safe(SUSPECTS_LENT(cells), answer, sizeof answer));
    while ((count = iterate(&cells, &place)) > 0) show("pass", count);
    expect_done("suspects_end_safe", suspects_end_safe(SUSPECTS_LENT(cells), answer, sizeof answer));
    look_for_missed();
    held = field(&cells, SUSPECTS_AT_OLD_USED) + field(&cells, SUSPECTS_AT_NEW_USED);
    if (walk.cells != held) complain("%" PRIu32 " cells came, and %" PRIu32 " are held", walk.cells, held);
    printf("pass ends: %" PRIu32 " cells\n", walk.cells);
}

/* ---- Failures that come in ---- */

static void add_cell(uint32_t key, uint32_t fails)
{
    uint32_t before = field(&cells, SUSPECTS_AT_NEW_SIZE), after;
    if (!add(&cells, key, fails)) {
        complain_of_cell(key, "was not taken: the store is full");
        return;
    }
    if (!add(&notes, key, 2 * walk.number)) complain_of_cell(key, "has no note: these are full");
    after = field(&cells, SUSPECTS_AT_NEW_SIZE);
    if (after != 0 && after != before)
        printf("line %lu: the table grows from %" PRIu32 " to %" PRIu32 " buckets\n", line_number,
               field(&cells, SUSPECTS_AT_OLD_SIZE), after);
}

static void take_failure(uint32_t key, uint32_t fails)
{
    uint32_t held;
    if (find(&cells, key, &held))
        update(&cells, key, fails > UINT32_MAX - held ? UINT32_MAX : held + fails);
    else
        add_cell(key, fails);
}

/* Reads a line without its line feed; false at the end of the input. A line that is too long, or has a zero byte in it,
   becomes an empty one, which is a bad line too. */
static bool read_line(char *line)
{
    size_t length = 0;
    bool good = true;
    int c = getchar();
    if (c == EOF) return false;
    for (; c != EOF && c != '\n'; c = getchar()) {
        good = good && c != '\0' && length < LINE_ROOM - 1;
        if (good) line[length++] = (char)c;
    }
    line[good ? length : 0] = '\0';
    return !ferror(stdin);
}

/* Reads a decimal number, which is at most `most`, and the blanks around it. False where there is none. */
static bool read_number(const char **text, uint32_t most, uint32_t *number)
{
    const char *blanks = " \t\r", *digits = *text + strspn(*text, blanks), *end = digits + strspn(digits, "0123456789");
    uint64_t n = 0;
    for (const char *p = digits; p < end; p++) {
        n = 10 * n + (uint64_t)(*p - '0');
        if (n > most) return false;
    }
    *number = (uint32_t)n;
    *text = end + strspn(end, blanks);
    return end > digits;
}

static void take_line(const char *line)
{
    uint32_t chain, position, fails;
    if (read_number(&line, UINT16_MAX, &chain) && read_number(&line, UINT16_MAX, &position) &&
        read_number(&line, UINT32_MAX, &fails) && *line == '\0')
        take_failure(suspects_key((uint16_t)chain, (uint16_t)position), fails);
    else
        complain("line %lu: not `chain position fails`, up to 65535 65535 4294967295", line_number);
}

static void take_input(void)
{
    char line[LINE_ROOM];
    while (read_line(line)) {
        line_number++;
        take_line(line);
        if (line_number % LINES_PER_CALL == 0) walk_on();
    }
    if (ferror(stdin)) {
        complain("standard input: %s", strerror(errno));
        exit(1);
    }
}

int main(int argc, char **argv)
{
    if (argc > 1) {
        fprintf(stderr, "usage: %s <FILE\n", argv[0]);
        return 2;
    }
    start(&cells);
    start(&notes);
    take_input();
    while (walk.cursor != 0) walk_on();
    careful_pass();
    if (fflush(stdout) != 0 || ferror(stdout)) complain("standard output: %s", strerror(errno));
    return complained ? 1 : 0;
}
