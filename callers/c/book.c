/*
 * Adds up a book and prints its line; with the positions turned round it is the
 * same. Then tries books that are refused, which leave the line as it is. The
 * first two positions are of hedge.c: a tranche, and the index that hedges it.
 */
#include <stdio.h>
#include <stdlib.h>

#include "lavroudem.h"

enum { POSITIONS = 4, FULL = LAVROUDEM_BOOK_LENGTH };

/* Of a book, the nominals or the net values. */
struct list {
    size_t length;
    int64_t entries[POSITIONS];
};

static const struct list none = {0, {0}};
static const struct list nominals = {POSITIONS, {1000000, -724386, 250000, -40}};
static const struct list values = {
    POSITIONS, {324300000000000, 194250000000000, -90000000000000001, -7}};

static struct list turned(struct list list)
{
    struct list back = list;
    for (size_t at = 0; at < list.length; at++) {
        back.entries[at] = list.entries[list.length - 1 - at];
    }
    return back;
}

/* The buffer, and how much of it the last line takes. */
static uint8_t out[FULL];
static size_t line;

/* Totals may not fit in 64 bits, so the line is shown as it is. */
static void print_book(
    const char *what, struct list book_nominals, struct list book_values, size_t room)
{
    const struct lavroudem_booked booked = lavroudem_book(
        book_nominals.entries, book_nominals.length,
        book_values.entries, book_values.length, out, room);
    printf("%s: ", what);
    if (booked.refusal == LAVROUDEM_ACCEPTED) {
        line = booked.length;
    } else {
        const unsigned refusal = booked.refusal;
        printf("refusal %u, %s; the line stays ", refusal, lavroudem_word(refusal));
    }
    fwrite(out, 1, line, stdout);
}

/* Whether all that was printed is out, also what stood in a buffer. */
static int told(void)
{
    if (fflush(stdout) != 0 || ferror(stdout)) {
        fputs("output lost\n", stderr);
        return EXIT_FAILURE;
    }
    return EXIT_SUCCESS;
}

int main(void)
{
    struct list raised = nominals;
    raised.entries[0]++;
    struct list cut = values;
    cut.length--;
    print_book("no positions", none, none, FULL);
    print_book("four positions", nominals, values, FULL);
    print_book("turned round", turned(nominals), turned(values), FULL);
    print_book("one pool more", raised, values, FULL);
    print_book("a value short", nominals, cut, FULL);
    print_book("a byte short", nominals, values, FULL - 1);
    return told();
}
