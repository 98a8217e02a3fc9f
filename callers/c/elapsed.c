/*
 * A sheet whose defaults pay premium for the time since the last premium date,
 * and the same with fractions of 0. Prints where the lists stand, the premium
 * legs on the way to the root and the hedge ratio there, and how a fraction
 * above the accrual of the next premium date is refused.
 */
#include <inttypes.h>
#include <stdio.h>
#include <stdlib.h>
#include <string.h>

#include "lavroudem.h"

enum { NAMES = 2, STEPS = 3, TRANCHES = 1, PERIODS = 1 };
enum { NUMBERS = LAVROUDEM_NUMBERS(NAMES, STEPS, TRANCHES, PERIODS) };
enum { ROW = (TRANCHES + 1) * (NAMES + 1) };

/* A walk with all that its calls are lent. */
struct desk {
    struct lavroudem_sheet sheet;
    uint64_t numbers[NUMBERS];
    uint8_t register_bytes[LAVROUDEM_REGISTER_LENGTH];
    struct lavroudem_walk walk;
    uint64_t defaults[ROW];
    uint64_t premiums[ROW];
};

/* What the calls of this desk are lent, whatever they answer. */
#define SHEET(desk) \
    (desk)->sheet, LAVROUDEM_LENT((desk)->numbers), LAVROUDEM_LENT((desk)->register_bytes)
#define ROWS(desk) LAVROUDEM_LENT((desk)->defaults), LAVROUDEM_LENT((desk)->premiums)

/* Ends the program where a call that should be accepted is refused. */
static void accept(const char *call, unsigned refusal)
{
    if (refusal != LAVROUDEM_ACCEPTED) {
        fprintf(stderr, "%s: refusal %u, %s\n", call, refusal, lavroudem_word(refusal));
        exit(EXIT_FAILURE);
    }
}

static void print_spans(const struct lavroudem_sheet *sheet)
{
    const struct lavroudem_span spans[] = {
        sheet->attachments, sheet->starts, sheet->hazards,
        sheet->discounts, sheet->accruals, sheet->elapsed, sheet->coupons,
    };
    for (size_t list = 0; list < sizeof spans / sizeof spans[0]; list++) {
        printf("%zu at %zu, ", spans[list].length, spans[list].at);
    }
    printf("%d in all\n", NUMBERS);
}

/* Premium is paid at steps 2 and 3, for half a year and for a quarter. */
static struct desk desk_of(uint8_t number, const uint64_t elapsed[STEPS])
{
    struct desk desk = {
        .sheet.pool = {NAMES, STEPS, TRANCHES, 0, number},
        .numbers = {
            0, 500000000,                      /* attachments */
            1,                                 /* starts */
            100000000, 200000000,              /* hazards */
            1000000000, 800000000, 1000000000, /* discounts */
            0, 500000000, 250000000,           /* accruals */
            elapsed[0], elapsed[1], elapsed[2],
            1000000, 500000,                   /* coupons */
        },
    };
    const size_t laid = lavroudem_lay_out(
        &desk.sheet, TRANCHES + 1, PERIODS, PERIODS * NAMES, STEPS, STEPS, STEPS, TRANCHES + 1);
    if (laid != NUMBERS) {
        fputs("the lists have other lengths than the numbers\n", stderr);
        exit(EXIT_FAILURE);
    }
    memset(desk.register_bytes, LAVROUDEM_UNISSUED, sizeof desk.register_bytes);
    accept("issue", lavroudem_issue(LAVROUDEM_LENT(desk.register_bytes), number));
    return desk;
}

/* At no default. */
static uint64_t premium_leg(const struct desk *desk, size_t tranche)
{
    const struct lavroudem_valued valued =
        lavroudem_value(desk->walk, SHEET(desk), ROWS(desk), tranche, 0);
    accept("value", valued.refusal);
    return valued.premium_leg;
}

static void walk_to_root(struct desk *desk)
{
    const struct lavroudem_opened opened = lavroudem_open(desk->walk, SHEET(desk), ROWS(desk));
    accept("open", opened.refusal);
    desk->walk = opened.walk;
    while (desk->walk.position > 0) {
        const struct lavroudem_moved moved =
            lavroudem_back(desk->walk, SHEET(desk), ROWS(desk), 1);
        accept("back", moved.refusal);
        desk->walk = moved.walk;
        printf("step %zu: premium leg %" PRIu64 ", of the index %" PRIu64 "\n",
            desk->walk.position, premium_leg(desk, 0), premium_leg(desk, TRANCHES));
    }
}

static void print_hedge_ratio(const struct desk *desk)
{
    const struct lavroudem_hedged hedged =
        lavroudem_hedge_ratio(desk->walk, SHEET(desk), ROWS(desk), 0, 0);
    accept("hedge ratio", hedged.refusal);
    printf("hedge ratio: %" PRId64 " millionths\n", hedged.ratio);
}

/* Step 3 is a premium date, so its fraction goes by its own accrual. */
static void print_refusal(struct desk *desk)
{
    uint64_t *const elapsed = &desk->numbers[desk->sheet.elapsed.at];
    elapsed[2] = 250000001;
    const struct lavroudem_opened opened = lavroudem_open(desk->walk, SHEET(desk), ROWS(desk));
    printf("elapsed %" PRIu64 " at step 3: refusal %u, %s\n",
        elapsed[2], (unsigned)opened.refusal, lavroudem_word(opened.refusal));
}

/* Whether all that was printed is out, also what stood in a buffer. */
static int told(void)
{
    if (fflush(stdout) != 0 || ferror(stdout)) {
        fputs("output lost\n", stderr);
        return EXIT_FAILURE;
    }
    return EXIT_SUCCESS;
}

int main(void)
{
    const uint64_t fractions[STEPS] = {250000000, 500000000, 125000000};
    const uint64_t zeros[STEPS] = {0, 0, 0};
    struct desk earned = desk_of(7, fractions);
    print_spans(&earned.sheet);
    walk_to_root(&earned);
    print_hedge_ratio(&earned);
    print_refusal(&earned);

    /* Another sheet, so another number. */
    struct desk unearned = desk_of(8, zeros);
    walk_to_root(&unearned);
    print_hedge_ratio(&unearned);
    return told();
}
