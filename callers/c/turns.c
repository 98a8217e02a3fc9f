/*
 * A terminal that serves five open walks in turns, one of them of 3,650 steps.
 * Prints whose turn it is at the start, and when each walk is at its root: the
 * long one keeps none waiting. Then prints what the tranche of each sheet is
 * worth at the root, which is the same as where the sheet is walked alone.
 */
#include <inttypes.h>
#include <stdio.h>
#include <stdlib.h>
#include <string.h>

#include "lavroudem.h"

enum { WALKS = 5, NAMES = 5, TRANCHES = 1, PERIODS = 1, FIRST_NUMBER = 100 };
enum { NUMBERS = LAVROUDEM_NUMBERS(NAMES, LAVROUDEM_MAX_STEPS, TRANCHES, PERIODS) };
enum { ROW = (TRANCHES + 1) * (NAMES + 1) };
enum { LISTED = 6, SHOWN = 3 };

static const size_t steps_of[WALKS] = {LAVROUDEM_MAX_STEPS, 2, 40, 10, 120};

/* What the calls of a walk are lent, besides the register. */
struct desk {
    struct lavroudem_sheet sheet;
    uint64_t numbers[NUMBERS];
    uint64_t defaults[ROW];
    uint64_t premiums[ROW];
};

static uint8_t register_bytes[LAVROUDEM_REGISTER_LENGTH];
static struct desk desks[WALKS];
static struct lavroudem_turn table[WALKS];

#define SHEET(desk) (desk)->sheet, LAVROUDEM_LENT((desk)->numbers), LAVROUDEM_LENT(register_bytes)
#define ROWS(desk) LAVROUDEM_LENT((desk)->defaults), LAVROUDEM_LENT((desk)->premiums)

/* Ends the program where a call that should be accepted is refused. */
static void accept(const char *call, unsigned refusal)
{
    if (refusal != LAVROUDEM_ACCEPTED) {
        fprintf(stderr, "%s: refusal %u, %s\n", call, refusal, lavroudem_word(refusal));
        exit(EXIT_FAILURE);
    }
}

static void fill(struct desk *desk, struct lavroudem_span list, uint64_t entry)
{
    for (size_t at = 0; at < list.length; at++) {
        desk->numbers[list.at + at] = entry;
    }
}

/* The sheets differ in their steps; what is not written here is 0. */
static void write_sheet(struct desk *desk, size_t steps, uint8_t number)
{
    struct lavroudem_sheet *const sheet = &desk->sheet;
    sheet->pool = (struct lavroudem_pool){NAMES, steps, TRANCHES, 400000000, number};
    lavroudem_lay_out(
        sheet, TRANCHES + 1, PERIODS, PERIODS * NAMES, steps, steps, steps, TRANCHES + 1);
    desk->numbers[sheet->attachments.at + 1] = 300000000;
    fill(desk, sheet->starts, 1);
    fill(desk, sheet->hazards, 1000000);
    fill(desk, sheet->discounts, 999900000);
    desk->numbers[sheet->accruals.at + steps - 1] = LAVROUDEM_ONE;
    fill(desk, sheet->coupons, 500000);
}

static struct lavroudem_walk open_walk(struct desk *desk)
{
    const struct lavroudem_walk fresh = {false, 0, 0};
    const struct lavroudem_opened opened = lavroudem_open(fresh, SHEET(desk), ROWS(desk));
    accept("open", opened.refusal);
    return opened.walk;
}

static struct lavroudem_walk back(struct lavroudem_walk walk, struct desk *desk, size_t steps)
{
    const struct lavroudem_moved moved = lavroudem_back(walk, SHEET(desk), ROWS(desk), steps);
    accept("back", moved.refusal);
    return moved.walk;
}

/* Of the tranche, at no default. */
static struct lavroudem_valued value(struct lavroudem_walk walk, const struct desk *desk)
{
    const struct lavroudem_valued valued = lavroudem_value(walk, SHEET(desk), ROWS(desk), 0, 0);
    accept("value", valued.refusal);
    return valued;
}

static void print_turns(const uint8_t *list, size_t count)
{
    printf("turns:");
    for (size_t at = 0; at < count; at++) {
        printf(" %u", (unsigned)list[at]);
    }
    putchar('\n');
}

/* The terminal's loop: takes each walk that is named back by 1, until no turn is left. */
static void serve(void)
{
    size_t place = WALKS - 1; /* so that place 0 comes first */
    size_t served = 0;
    for (size_t call = 0;; call++) {
        uint8_t list[LISTED];
        const struct lavroudem_allotted allotted =
            lavroudem_turns(LAVROUDEM_LENT(table), place, LAVROUDEM_LENT(list));
        accept("turns", allotted.refusal);
        if (allotted.count == 0) {
            return;
        }
        place = allotted.place;
        if (call < SHOWN) {
            print_turns(list, allotted.count);
        }
        for (size_t at = 0; at < allotted.count; at++) {
            struct lavroudem_walk *const walk = &table[list[at]].walk;
            *walk = back(*walk, &desks[list[at]], 1);
            served++;
            if (walk->position == 0) {
                printf("walk %u at its root after %zu turns\n", (unsigned)list[at], served);
            }
        }
    }
}

/* The same sheet on rows of its own, taken back in one call. */
static struct lavroudem_valued walked_alone(size_t place)
{
    static struct desk desk;
    desk = desks[place];
    const struct lavroudem_walk walk = open_walk(&desk);
    return value(back(walk, &desk, walk.position), &desk);
}

/* Ends the program where it is not worth the same as when walked alone. */
static void print_value(size_t place)
{
    const struct lavroudem_valued valued = value(table[place].walk, &desks[place]);
    const struct lavroudem_valued alone = walked_alone(place);
    if (valued.walk.position != alone.walk.position || valued.default_leg != alone.default_leg
        || valued.premium_leg != alone.premium_leg || valued.net_value != alone.net_value) {
        fprintf(stderr, "walk %zu is worth something else when walked alone\n", place);
        exit(EXIT_FAILURE);
    }
    printf(
        "walk %zu, steps %zu: default leg %" PRIu64 ", premium leg %" PRIu64
        ", net value %" PRId64 ", as alone\n",
        place, steps_of[place], valued.default_leg, valued.premium_leg, valued.net_value);
}

/* Whether all that was printed is out, also what stood in a buffer. */
static int told(void)
{
    if (fflush(stdout) != 0 || ferror(stdout)) {
        fputs("output lost\n", stderr);
        return EXIT_FAILURE;
    }
    return EXIT_SUCCESS;
}

int main(void)
{
    /* A real register is kept over a power loss; this one starts blank. */
    memset(register_bytes, LAVROUDEM_UNISSUED, sizeof register_bytes);
    for (size_t place = 0; place < WALKS; place++) {
        const uint8_t number = (uint8_t)(FIRST_NUMBER + place);
        accept("issue", lavroudem_issue(LAVROUDEM_LENT(register_bytes), number));
        write_sheet(&desks[place], steps_of[place], number);
        table[place].walk = open_walk(&desks[place]);
        table[place].left = (uint16_t)table[place].walk.position;
    }
    serve();
    for (size_t place = 0; place < WALKS; place++) {
        print_value(place);
    }
    return told();
}
