/*
 * A sheet of two periods: its hazards are higher from step 3 on. Prints where
 * its lists stand, the default leg of the index on the way to the root and the
 * chances of default counts, and how starts that do not rise are refused.
 */
#include <inttypes.h>
#include <stdio.h>
#include <stdlib.h>
#include <string.h>

#include "lavroudem.h"

enum { NAMES = 2, STEPS = 3, TRANCHES = 1, PERIODS = 2, NUMBER = 7 };
enum { NUMBERS = LAVROUDEM_NUMBERS(NAMES, STEPS, TRANCHES, PERIODS) };
enum { ROW = (TRANCHES + 1) * (NAMES + 1) };

/* A walk with all that its calls are lent. */
struct desk {
    struct lavroudem_sheet sheet;
    uint64_t numbers[NUMBERS];
    uint8_t register_bytes[LAVROUDEM_REGISTER_LENGTH];
    struct lavroudem_walk walk;
    uint64_t defaults[ROW];
    uint64_t premiums[ROW];
};

/* What the calls of this desk are lent, whatever they answer. */
#define SHEET(desk) \
    (desk)->sheet, LAVROUDEM_LENT((desk)->numbers), LAVROUDEM_LENT((desk)->register_bytes)
#define ROWS(desk) LAVROUDEM_LENT((desk)->defaults), LAVROUDEM_LENT((desk)->premiums)

/* Ends the program where a call that should be accepted is refused. */
static void accept(const char *call, unsigned refusal)
{
    if (refusal != LAVROUDEM_ACCEPTED) {
        fprintf(stderr, "%s: refusal %u, %s\n", call, refusal, lavroudem_word(refusal));
        exit(EXIT_FAILURE);
    }
}

static void print_spans(const struct lavroudem_sheet *sheet, size_t laid)
{
    const struct lavroudem_span spans[] = {
        sheet->attachments, sheet->starts, sheet->hazards,
        sheet->discounts, sheet->accruals, sheet->elapsed, sheet->coupons,
    };
    for (size_t list = 0; list < sizeof spans / sizeof spans[0]; list++) {
        printf("%zu at %zu, ", spans[list].length, spans[list].at);
    }
    printf("%zu in all\n", laid);
}

/* Of the index, at no default. */
static void print_default_leg(const struct desk *desk)
{
    const struct lavroudem_valued valued =
        lavroudem_value(desk->walk, SHEET(desk), ROWS(desk), TRANCHES, 0);
    accept("value", valued.refusal);
    printf("index at step %zu: default leg %" PRIu64 "\n",
        valued.walk.position, valued.default_leg);
}

/* The first step back goes by the hazards of the last period. */
static void walk_to_root(struct desk *desk)
{
    const struct lavroudem_opened opened = lavroudem_open(desk->walk, SHEET(desk), ROWS(desk));
    accept("open", opened.refusal);
    desk->walk = opened.walk;
    while (desk->walk.position > 0) {
        const struct lavroudem_moved moved =
            lavroudem_back(desk->walk, SHEET(desk), ROWS(desk), 1);
        accept("back", moved.refusal);
        desk->walk = moved.walk;
        print_default_leg(desk);
    }
}

static void print_default_counts(const struct desk *desk, size_t steps)
{
    uint64_t row[NAMES + 1];
    accept("forward", lavroudem_forward(SHEET(desk), LAVROUDEM_LENT(row), steps));
    printf("chances after %zu steps:", steps);
    for (size_t count = 0; count <= NAMES; count++) {
        printf(" %" PRIu64, row[count]);
    }
    putchar('\n');
}

/* A refused call writes nothing, so the rows stay those of the walk. */
static void print_refusal(struct desk *desk)
{
    uint64_t *const starts = &desk->numbers[desk->sheet.starts.at];
    starts[1] = 1;
    const struct lavroudem_opened opened = lavroudem_open(desk->walk, SHEET(desk), ROWS(desk));
    printf("starts %" PRIu64 " and %" PRIu64 ": refusal %u, %s\n",
        starts[0], starts[1], (unsigned)opened.refusal, lavroudem_word(opened.refusal));
}

/* Whether all that was printed is out, also what stood in a buffer. */
static int told(void)
{
    if (fflush(stdout) != 0 || ferror(stdout)) {
        fputs("output lost\n", stderr);
        return EXIT_FAILURE;
    }
    return EXIT_SUCCESS;
}

int main(void)
{
    struct desk desk = {
        .sheet.pool = {NAMES, STEPS, TRANCHES, 0, NUMBER},
        .numbers = {
            0, 1000000000,                      /* attachments */
            1, 3,                               /* starts */
            100000000, 200000000,               /* hazards of steps 1 and 2 */
            300000000, 400000000,               /* hazards of step 3 */
            1000000000, 1000000000, 1000000000, /* discounts */
            0, 0, 1000000000,                   /* accruals */
            0, 0, 0,                            /* elapsed */
            1000000, 500000,                    /* coupons */
        },
    };
    const size_t laid = lavroudem_lay_out(
        &desk.sheet, TRANCHES + 1, PERIODS, PERIODS * NAMES, STEPS, STEPS, STEPS, TRANCHES + 1);
    print_spans(&desk.sheet, laid);

    memset(desk.register_bytes, LAVROUDEM_UNISSUED, sizeof desk.register_bytes);
    accept("issue", lavroudem_issue(LAVROUDEM_LENT(desk.register_bytes), NUMBER));
    walk_to_root(&desk);
    print_default_counts(&desk, 2);
    print_default_counts(&desk, 3);
    print_refusal(&desk);
    return told();
}
