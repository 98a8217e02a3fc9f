/*
 * Lays out a sheet whose lists have unequal lengths, and prints where each
 * list stands and every figure on the way to the root.
 */
#include <inttypes.h>
#include <stdio.h>
#include <stdlib.h>
#include <string.h>

#include "lavroudem.h"

enum { NAMES = 4, STEPS = 3, TRANCHES = 1, PERIODS = 1, NUMBER = 7 };
enum { ROW = (TRANCHES + 1) * (NAMES + 1) };

static const uint64_t numbers[] = {
    30000000, 400000000,                        /* attachments */
    1,                                          /* starts */
    100000000, 200000000, 300000000, 400000000, /* hazards */
    980000000, 970000000, 960000000,            /* discounts */
    250000000, 0, 500000000,                    /* accruals */
    0, 0, 0,                                    /* elapsed */
    1000000, 500000,                            /* coupons */
};

static_assert(
    sizeof numbers / sizeof numbers[0] == LAVROUDEM_NUMBERS(NAMES, STEPS, TRANCHES, PERIODS),
    "the numbers of the sheet");

/* A walk with all that its calls are lent. */
struct desk {
    struct lavroudem_sheet sheet;
    uint8_t register_bytes[LAVROUDEM_REGISTER_LENGTH];
    struct lavroudem_walk walk;
    uint64_t defaults[ROW];
    uint64_t premiums[ROW];
};

#define SHEET(desk) (desk)->sheet, LAVROUDEM_LENT(numbers), LAVROUDEM_LENT((desk)->register_bytes)
#define ROWS(desk) LAVROUDEM_LENT((desk)->defaults), LAVROUDEM_LENT((desk)->premiums)

static void accept(const char *call, unsigned refusal)
{
    if (refusal != LAVROUDEM_ACCEPTED) {
        fprintf(stderr, "%s: refusal %u, %s\n", call, refusal, lavroudem_word(refusal));
        exit(EXIT_FAILURE);
    }
}

static void print_spans(const struct lavroudem_sheet *sheet, size_t laid)
{
    const struct lavroudem_span spans[] = {
        sheet->attachments, sheet->starts, sheet->hazards,
        sheet->discounts, sheet->accruals, sheet->elapsed, sheet->coupons,
    };
    for (size_t list = 0; list < sizeof spans / sizeof spans[0]; list++) {
        printf("%zu at %zu, ", spans[list].length, spans[list].at);
    }
    printf("%zu in all\n", laid);
}

static void print_node(const struct desk *desk, size_t tranche, size_t count)
{
    const struct lavroudem_valued valued =
        lavroudem_value(desk->walk, SHEET(desk), ROWS(desk), tranche, count);
    accept("value", valued.refusal);
    printf(
        "%zu %zu %zu: %" PRIu64 " %" PRIu64 " %" PRId64, desk->walk.position, tranche, count,
        valued.default_leg, valued.premium_leg, valued.net_value);
    if (count < NAMES) {
        const struct lavroudem_hedged hedged =
            lavroudem_hedge_ratio(desk->walk, SHEET(desk), ROWS(desk), tranche, count);
        accept("hedge ratio", hedged.refusal);
        printf(" %" PRId64, hedged.ratio);
    }
    putchar('\n');
}

/* Tranche by tranche, the index last, by default count. */
static void print_nodes(const struct desk *desk)
{
    for (size_t node = 0; node < ROW; node++) {
        print_node(desk, node / (NAMES + 1), node % (NAMES + 1));
    }
}

static void print_default_counts(const struct desk *desk, size_t steps)
{
    uint64_t row[NAMES + 1];
    accept("forward", lavroudem_forward(SHEET(desk), LAVROUDEM_LENT(row), steps));
    printf("forward %zu:", steps);
    for (size_t count = 0; count <= NAMES; count++) {
        printf(" %" PRIu64, row[count]);
    }
    putchar('\n');
}

/* The position, tranche and default count; default leg, premium leg, net value and hedge ratio. */
static void walk_to_root(struct desk *desk)
{
    const struct lavroudem_opened opened = lavroudem_open(desk->walk, SHEET(desk), ROWS(desk));
    accept("open", opened.refusal);
    desk->walk = opened.walk;
    while (desk->walk.position > 0) {
        const struct lavroudem_moved moved =
            lavroudem_back(desk->walk, SHEET(desk), ROWS(desk), 1);
        accept("back", moved.refusal);
        desk->walk = moved.walk;
        print_nodes(desk);
    }
}

/* Whether all that was printed is out, also what stood in a buffer. */
static int told(void)
{
    if (fflush(stdout) != 0 || ferror(stdout)) {
        fputs("output lost\n", stderr);
        return EXIT_FAILURE;
    }
    return EXIT_SUCCESS;
}

int main(void)
{
    struct desk desk = {.sheet.pool = {NAMES, STEPS, TRANCHES, 400000000, NUMBER}};
    /* No two lists of a length, which no pool asks for: all seven can be told apart. */
    print_spans(&desk.sheet, lavroudem_lay_out(&desk.sheet, 5, 4, 2, 11, 3, 6, 7));
    const size_t laid = lavroudem_lay_out(
        &desk.sheet, TRANCHES + 1, PERIODS, PERIODS * NAMES, STEPS, STEPS, STEPS, TRANCHES + 1);
    print_spans(&desk.sheet, laid);

    memset(desk.register_bytes, LAVROUDEM_UNISSUED, sizeof desk.register_bytes);
    accept("issue", lavroudem_issue(LAVROUDEM_LENT(desk.register_bytes), NUMBER));
    walk_to_root(&desk);
    for (size_t steps = 0; steps <= STEPS; steps++) {
        print_default_counts(&desk, steps);
    }
    return told();
}
