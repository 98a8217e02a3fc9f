/*
 * Walks the small sheet of the paper to its root, prints what each tranche
 * and the index are worth there and the hedge ratio of the tranche, and
 * withdraws the sheet.
 */
#include <inttypes.h>
#include <stdio.h>
#include <stdlib.h>
#include <string.h>

#include "lavroudem.h"

enum { NAMES = 2, STEPS = 2, TRANCHES = 1, PERIODS = 1, NUMBER = 7 };
enum { ROW = (TRANCHES + 1) * (NAMES + 1) };

static const uint64_t numbers[LAVROUDEM_NUMBERS(NAMES, STEPS, TRANCHES, PERIODS)] = {
    0, 300000000,          /* attachments */
    1,                     /* starts */
    100000000, 200000000,  /* hazards */
    1000000000, 900000000, /* discounts */
    0, 1000000000,         /* accruals */
    0, 0,                  /* elapsed */
    1000000, 500000,       /* coupons */
};

/* A walk with all that its calls are lent. */
struct desk {
    struct lavroudem_sheet sheet;
    uint8_t register_bytes[LAVROUDEM_REGISTER_LENGTH];
    struct lavroudem_walk walk;
    uint64_t defaults[ROW];
    uint64_t premiums[ROW];
};

/* What the calls of this desk are lent, whatever they answer. */
#define SHEET(desk) (desk)->sheet, LAVROUDEM_LENT(numbers), LAVROUDEM_LENT((desk)->register_bytes)
#define ROWS(desk) LAVROUDEM_LENT((desk)->defaults), LAVROUDEM_LENT((desk)->premiums)

/* Ends the program where a call that should be accepted is refused. */
static void accept(const char *call, unsigned refusal)
{
    if (refusal != LAVROUDEM_ACCEPTED) {
        fprintf(stderr, "%s: refusal %u, %s\n", call, refusal, lavroudem_word(refusal));
        exit(EXIT_FAILURE);
    }
}

/* Opens the sheet and takes its rows to the root, step by step. */
static void walk_to_root(struct desk *desk)
{
    const struct lavroudem_opened opened = lavroudem_open(desk->walk, SHEET(desk), ROWS(desk));
    accept("open", opened.refusal);
    desk->walk = opened.walk;
    while (desk->walk.position > 0) {
        const struct lavroudem_moved moved =
            lavroudem_back(desk->walk, SHEET(desk), ROWS(desk), 1);
        accept("back", moved.refusal);
        printf("back to step %zu\n", moved.position);
        desk->walk = moved.walk;
    }
}

/* At no default. */
static void print_value(const struct desk *desk, size_t tranche)
{
    const struct lavroudem_valued valued =
        lavroudem_value(desk->walk, SHEET(desk), ROWS(desk), tranche, 0);
    accept("value", valued.refusal);
    if (tranche == TRANCHES) {
        printf("index: ");
    } else {
        printf("tranche %zu: ", tranche);
    }
    printf(
        "default leg %" PRIu64 ", premium leg %" PRIu64 ", net value %" PRId64 "\n",
        valued.default_leg, valued.premium_leg, valued.net_value);
}

static void print_hedge_ratio(const struct desk *desk)
{
    const struct lavroudem_hedged hedged =
        lavroudem_hedge_ratio(desk->walk, SHEET(desk), ROWS(desk), 0, 0);
    accept("hedge ratio", hedged.refusal);
    printf("hedge ratio of tranche 0: %" PRId64 " millionths\n", hedged.ratio);
}

static void print_default_counts(const struct desk *desk)
{
    uint64_t row[NAMES + 1];
    accept("forward", lavroudem_forward(SHEET(desk), LAVROUDEM_LENT(row), STEPS));
    for (size_t count = 0; count <= NAMES; count++) {
        printf("chance of default count %zu after %d steps: %" PRIu64 " billionths\n",
            count, STEPS, row[count]);
    }
}

/* Whether all that was printed is out, also what stood in a buffer. */
static int told(void)
{
    if (fflush(stdout) != 0 || ferror(stdout)) {
        fputs("output lost\n", stderr);
        return EXIT_FAILURE;
    }
    return EXIT_SUCCESS;
}

int main(void)
{
    struct desk desk = {
        .sheet.pool = {
            .names = NAMES,
            .steps = STEPS,
            .tranches = TRANCHES,
            .recovery = 400000000,
            .number = NUMBER,
        },
    };
    const size_t laid = lavroudem_lay_out(
        &desk.sheet, TRANCHES + 1, PERIODS, PERIODS * NAMES, STEPS, STEPS, STEPS, TRANCHES + 1);
    if (laid != sizeof numbers / sizeof numbers[0]) {
        fputs("the lists have other lengths than the numbers\n", stderr);
        return EXIT_FAILURE;
    }
    /* A real register is kept over a power loss; this one starts blank. */
    memset(desk.register_bytes, LAVROUDEM_UNISSUED, sizeof desk.register_bytes);
    accept("issue", lavroudem_issue(LAVROUDEM_LENT(desk.register_bytes), NUMBER));

    walk_to_root(&desk);
    for (size_t tranche = 0; tranche <= TRANCHES; tranche++) {
        print_value(&desk, tranche);
    }
    print_hedge_ratio(&desk);
    print_default_counts(&desk);

    accept("withdraw", lavroudem_withdraw(LAVROUDEM_LENT(desk.register_bytes), NUMBER));
    const struct lavroudem_valued late =
        lavroudem_value(desk.walk, SHEET(&desk), ROWS(&desk), 0, 0);
    printf("value of a withdrawn sheet: refusal %u, %s\n",
        (unsigned)late.refusal, lavroudem_word(late.refusal));
    return told();
}
