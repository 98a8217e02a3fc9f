/*
 * Lavroudem for C and C++: values tranches of a pool of credits on a tree of
 * default counts. The functions stand in liblavroudem.a, a copy of the
 * libexport.a that `rt lib` writes in crates/export, for 64-bit x86 Linux.
 *
 * What holds of every call:
 *
 * - It checks what it is lent in the order of the refusals below and answers
 *   the number of the first one met, or 0. A refused call changes nothing:
 *   register, rows, image, output, table and list keep every byte, the walk or
 *   the place comes back as it was given, and the figures of the answer are 0,
 *   and so is a length or a count.
 * - A list is lent as a pointer and the number of its entries. This the caller
 *   must see to, for no call can check it: the pointer is aligned for its
 *   entries and not NULL, even where the number is 0; the memory is there; and
 *   a list that a call writes overlaps no other list of that call. Lists that
 *   it only reads may overlap.
 * - Rows belong to their walk and sheet: bring the same sheet, and the rows as
 *   the last call left them, from the open on. Another sheet with the same
 *   number is taken as it comes.
 * - It keeps nothing between calls, allocates nothing and locks nothing.
 *   Threads may call at once, so long as none writes what another is lent. A
 *   call needs less than 256 kB of stack.
 *
 * Units:
 *
 * - money: a unit is one billionth of the pool, LAVROUDEM_ONE is all of it
 * - recovery, hazards and discounts: billionths, LAVROUDEM_ONE is 1
 * - accruals and elapsed fractions: billionths of a year
 * - coupons, packed or not: thousandths of a basis point a year
 * - default leg: units
 * - premium leg: units, for a coupon of 100 percent a year
 * - net value: ten-millionths of a unit
 * - hedge ratio: millionths
 * - nominal of a position: pools, of either sign
 * - totals of a book: ten-millionths of a unit, as net values are
 */
#ifndef LAVROUDEM_H
#define LAVROUDEM_H

#include <assert.h>
#include <stdbool.h>
#include <stddef.h>
#include <stdint.h>

#ifdef __cplusplus
extern "C" {
#endif

/* ---- version */

/*
 * Of this header, raised when a call, a struct or a number in it changes. An
 * archive of another version is not linked: `lavroudem_version_7`, which the
 * archive of this version alone has, is named by whatever includes this header.
 * `lavroudem_version` answers the archive's version.
 */
#define LAVROUDEM_VERSION 7
uint64_t lavroudem_version(void);
uint64_t lavroudem_version_7(void);

#if defined(__has_attribute)
#if __has_attribute(retain)
#define LAVROUDEM_STAYS __attribute__((unused, used, retain))
#endif
#endif
#ifndef LAVROUDEM_STAYS
#define LAVROUDEM_STAYS __attribute__((unused, used))
#endif
LAVROUDEM_STAYS static uint64_t (*const lavroudem_linked_version)(void) = lavroudem_version_7;

/* ---- limits */

#define LAVROUDEM_ONE 1000000000
#define LAVROUDEM_MAX_NAMES 125
#define LAVROUDEM_MAX_STEPS 3650
#define LAVROUDEM_MAX_TRANCHES 8 /* the index not counted */
#define LAVROUDEM_MAX_PERIODS 16
#define LAVROUDEM_MAX_ACCRUALS 10000000000 /* their sum */
#define LAVROUDEM_MAX_COUPON 10000000
#define LAVROUDEM_MAX_DECK 65536 /* bytes */
#define LAVROUDEM_PACKED_LENGTH 4 /* bytes of a packed coupon */
#define LAVROUDEM_MAX_POSITIONS 4096 /* of a book */
#define LAVROUDEM_MAX_NOMINAL 1000000 /* of a position, on either side of 0 */
#define LAVROUDEM_MAX_NET_VALUE 200000000000000000 /* of a position, on either side of 0 */
#define LAVROUDEM_BOOK_LENGTH 96 /* bytes that are lent for the line of a book */
#define LAVROUDEM_MAX_WALKS 16 /* of a turn table */
#define LAVROUDEM_MAX_PLACES 65535 /* of a list of turns */

/* Entries of a row of the largest sheet, and of a forward row. */
#define LAVROUDEM_MAX_ROW ((LAVROUDEM_MAX_TRANCHES + 1) * (LAVROUDEM_MAX_NAMES + 1))
#define LAVROUDEM_MAX_FORWARD_ROW (LAVROUDEM_MAX_NAMES + 1)

/*
 * The register has one byte for each sheet number, 0 to 255. A blank one has
 * LAVROUDEM_UNISSUED in every byte. All bytes but the first two below mean
 * withdrawn; the third is what a withdrawal leaves. Issue and withdraw write
 * the one byte of their number, and only clear bits of it.
 *
 * A call writes the memory that it is lent, and no more. To keep a register in
 * a file, so that a withdrawn number stays withdrawn over a power loss:
 *
 * - lock the file, and keep it locked as long as the register is in use: of two
 *   users, each with a copy, one would show what the other has withdrawn;
 * - take a file of another length, or none, as an error, never as blank;
 * - after an accepted issue or withdraw write the byte of its number, and no
 *   other, to its place in the file, and force it to the disk (fdatasync);
 * - believe the answer, and show it, only then. If a write or a sync fails,
 *   what the disk holds is unknown: stop, and open the register anew. There,
 *   write all bytes as they were read, and force them, before believing them.
 *
 * kept.c is an example. What is assumed of the disk: where the power fails in
 * such a write, each bit that it should clear is found cleared or not, and all
 * other bits of the file as they were.
 */
#define LAVROUDEM_REGISTER_LENGTH 256
#define LAVROUDEM_UNISSUED 0xFF
#define LAVROUDEM_LIVE 0xA5
#define LAVROUDEM_WITHDRAWN 0x00

/* ---- refusals, in the order in which a call checks them */

enum lavroudem_refusal {
    LAVROUDEM_ACCEPTED = 0,
    LAVROUDEM_REFUSED_POOL = 1, /* names, steps or tranches 0 or too many */
    LAVROUDEM_REFUSED_LENGTH = 2, /* a list has another length than it should */
    LAVROUDEM_REFUSED_BOOK = 28, /* lists of unlike length or too long, or an entry out of range */
    LAVROUDEM_REFUSED_TURNS = 29, /* a turn table, its place, steps left or list out of range */
    LAVROUDEM_REFUSED_RECOVERY = 3, /* above 1 */
    LAVROUDEM_REFUSED_ATTACHMENTS = 4, /* not strictly rising, or one above 1 */
    LAVROUDEM_REFUSED_PERIODS = 25, /* starts not strictly rising, not from 1, or one above steps */
    LAVROUDEM_REFUSED_HAZARD = 5, /* one above 1 */
    LAVROUDEM_REFUSED_DISCOUNT = 6, /* one 0 or above 1 */
    LAVROUDEM_REFUSED_ACCRUAL = 7, /* one above 1, their sum above 10, or the last 0 */
    LAVROUDEM_REFUSED_ELAPSED = 21, /* one above the accrual of the next premium date */
    LAVROUDEM_REFUSED_DIGIT = 30, /* a half byte of a packed coupon above 9 */
    LAVROUDEM_REFUSED_COUPON = 8, /* one above LAVROUDEM_MAX_COUPON */
    LAVROUDEM_REFUSED_WITHDRAWN = 9, /* by the register */
    LAVROUDEM_REFUSED_UNISSUED = 10, /* by the register */
    LAVROUDEM_REFUSED_NO_WALK = 11, /* closed, of another number, or beyond the last step */
    LAVROUDEM_REFUSED_OVER_CEILING = 12, /* an entry of the rows is over its ceiling */
    LAVROUDEM_REFUSED_OUT_OF_STEPS = 13, /* back beyond the root, or forward beyond the last step */
    LAVROUDEM_REFUSED_OFF_TREE = 14, /* no such tranche or default count */
    LAVROUDEM_REFUSED_FLAT_HEDGE = 15, /* the index does not move with the next default */
    LAVROUDEM_REFUSED_OFF_SCALE = 16, /* a ratio of a million or more, of either sign */
    LAVROUDEM_REFUSED_LIVE = 17, /* issue of a live number */
    /* The last three are printed by a deck; no function answers them. */
    LAVROUDEM_REFUSED_UNKNOWN = 18, /* no such command */
    LAVROUDEM_REFUSED_CUT_SHORT = 19, /* the deck ends within a command */
    LAVROUDEM_REFUSED_TOO_MANY = 20 /* entries of a list, pools, or bytes of a deck */
};

/* The word that goes with a refusal; "" for a number that is none. */
static inline const char *lavroudem_word(unsigned refusal)
{
    static const char *const words[] = {
        "accepted", "pool", "length", "recovery", "cuts", "hazard", "discount", "accrual",
        "coupon", "withdrawn", "unissued", "no walk", "soiled", "out of steps", "off tree",
        "flat hedge", "off scale", "live", "unknown", "cut short", "too many",
        "elapsed",
        "", "", "", /* 22 to 24 are none */
        "periods",
        "", "", /* 26 and 27 are none */
        "book",
        "turns",
        "digit",
    };
    return refusal < sizeof words / sizeof words[0] ? words[refusal] : "";
}

/* ---- what is brought and answered */

/* A sheet's figures but for its lists. */
struct lavroudem_pool {
    size_t names;
    size_t steps;
    size_t tranches;
    uint64_t recovery;
    uint8_t number;
};

/*
 * Where a list stands among the numbers of a sheet. One that reaches past
 * their end is refused with 2 (1, where the pool is outside its limits), and
 * so is a list of another length than the pool asks for.
 */
struct lavroudem_span {
    size_t at;
    size_t length;
};

/*
 * A sheet. Its numbers are lent beside it, as one list in which each of its
 * seven lists has a span:
 *   attachments  tranches + 1, rising; tranche j lies between entries j and j + 1
 *   starts       1 to LAVROUDEM_MAX_PERIODS, the first 1, rising, none above steps;
 *                entry p is the first step of period p
 *   hazards      names for each start, period by period; entry p * names + k is the
 *                chance in period p that a step takes k defaults to k + 1
 *   discounts    steps; entry i - 1 brings cash from step i to step i - 1
 *   accruals     steps; entry i - 1 is paid at step i, and 0 if that is no premium date
 *   elapsed      steps; entry i - 1 is the time since the last premium date that a
 *                default into step i still pays for, at most the accrual of the next
 *                premium date, at step i or after it
 *   coupons      tranches + 1, that of the index last
 * The move from step i - 1 to step i goes by the hazards of the period that
 * holds step i, the last one that starts at i or before. Hazards that stay the
 * same throughout are one period: its start is 1. periods.c has two.
 *
 * A default into step i brings the premium side the elapsed fraction of that
 * step times what the default takes off the outstanding nominal. Where it is to
 * bring nothing, the fractions are 0. elapsed.c has others.
 */
struct lavroudem_sheet {
    struct lavroudem_pool pool;
    struct lavroudem_span attachments;
    struct lavroudem_span starts;
    struct lavroudem_span hazards;
    struct lavroudem_span discounts;
    struct lavroudem_span accruals;
    struct lavroudem_span elapsed;
    struct lavroudem_span coupons;
};

/* The numbers of a sheet that is accepted, and of the largest. */
#define LAVROUDEM_NUMBERS(names, steps, tranches, periods) \
    (2 * ((tranches) + 1) + (periods) * ((names) + 1) + 3 * (steps))
#define LAVROUDEM_MAX_NUMBERS \
    LAVROUDEM_NUMBERS( \
        LAVROUDEM_MAX_NAMES, LAVROUDEM_MAX_STEPS, LAVROUDEM_MAX_TRANCHES, LAVROUDEM_MAX_PERIODS)

/*
 * Lays the lists out one after the other, in the order of their spans, and
 * answers how many numbers they have. The lengths are those that the lists
 * have; what the pool asks for is checked by each call.
 *
 *     const uint64_t numbers[] = {
 *         0, 300000000,                    // attachments, tranches + 1
 *         1,                               // starts, one for each period
 *         100000000, 200000000, 300000000, // hazards, names for each start
 *         900000000,                       // discounts, steps
 *         1000000000,                      // accruals, steps
 *         500000000,                       // elapsed, steps
 *         1000000, 500000,                 // coupons, tranches + 1
 *     };
 *     struct lavroudem_sheet sheet = {.pool = {3, 1, 1, 400000000, 7}};
 *     size_t length = lavroudem_lay_out(&sheet, 2, 1, 3, 1, 1, 1, 2);
 */
static inline size_t lavroudem_lay_out(
    struct lavroudem_sheet *sheet, size_t attachments, size_t starts, size_t hazards,
    size_t discounts, size_t accruals, size_t elapsed, size_t coupons)
{
    struct lavroudem_span *const spans[] = {
        &sheet->attachments, &sheet->starts, &sheet->hazards,
        &sheet->discounts, &sheet->accruals, &sheet->elapsed, &sheet->coupons,
    };
    const size_t lengths[] = {
        attachments, starts, hazards, discounts, accruals, elapsed, coupons,
    };
    size_t at = 0;
    for (size_t list = 0; list < sizeof lengths / sizeof lengths[0]; list++) {
        spans[list]->at = at;
        spans[list]->length = lengths[list];
        at += lengths[list];
    }
    return at;
}

/* An array, not a pointer, as a call takes it: where it starts, and its entries. */
#define LAVROUDEM_LENT(array) (array), sizeof (array) / sizeof (array)[0]

/* A walk. A fresh one is all zeros. Pass the one that the last call handed back. */
struct lavroudem_walk {
    bool open;
    uint8_t number;  /* of its sheet */
    size_t position; /* the step at which its rows stand; 0 is the root */
};

/* A record of a turn table. */
struct lavroudem_turn {
    struct lavroudem_walk walk;
    uint16_t left; /* steps left, at most LAVROUDEM_MAX_STEPS */
};

/* In each answer `refusal` is LAVROUDEM_ACCEPTED or the number of a refusal. */

struct lavroudem_opened {
    uint8_t refusal;
    struct lavroudem_walk walk;
};

struct lavroudem_moved {
    uint8_t refusal;
    size_t position; /* the new one, that of the walk */
    struct lavroudem_walk walk;
};

struct lavroudem_valued {
    uint8_t refusal;
    uint64_t default_leg;
    uint64_t premium_leg;
    int64_t net_value; /* 10,000,000 * default leg - coupon * premium leg */
    struct lavroudem_walk walk;
};

struct lavroudem_hedged {
    uint8_t refusal;
    int64_t ratio;
    struct lavroudem_walk walk;
};

struct lavroudem_unpacked {
    uint8_t refusal;
    uint64_t coupon;
};

struct lavroudem_booked {
    uint8_t refusal;
    size_t length; /* bytes of the line, its line feed counted */
};

struct lavroudem_allotted {
    uint8_t refusal;
    size_t count; /* places that were written */
    size_t place; /* the one served last, to be brought to the next call */
};

/* ---- the functions */

/* Makes an unissued number live: writes its byte of the register. Refusals 2, 9, 17. */
uint8_t lavroudem_issue(uint8_t *register_bytes, size_t register_length, uint8_t number);

/* Ends a live number for good: writes its byte of the register. Refusals 2, 9, 10. */
uint8_t lavroudem_withdraw(uint8_t *register_bytes, size_t register_length, uint8_t number);

/*
 * Starts a walk at the last step, whatever walk is given. Writes zeros to both
 * rows, which may hold anything before. Each row has (tranches + 1) *
 * (names + 1) entries: those of tranche 0 by default count, from 0 to names,
 * then those of tranche 1, and so on, the index last. Refusals 1 to 10, 21 and
 * 25.
 */
struct lavroudem_opened lavroudem_open(
    struct lavroudem_walk walk,
    struct lavroudem_sheet sheet,
    const uint64_t *numbers, size_t numbers_length,
    const uint8_t *register_bytes, size_t register_length,
    uint64_t *defaults, size_t defaults_length,
    uint64_t *premiums, size_t premiums_length);

/*
 * Takes both rows so many steps back, 0 included, and answers the new
 * position. Writes both rows. Refusals 1 to 13, 21 and 25.
 */
struct lavroudem_moved lavroudem_back(
    struct lavroudem_walk walk,
    struct lavroudem_sheet sheet,
    const uint64_t *numbers, size_t numbers_length,
    const uint8_t *register_bytes, size_t register_length,
    uint64_t *defaults, size_t defaults_length,
    uint64_t *premiums, size_t premiums_length,
    size_t steps);

/*
 * Answers the default leg, the premium leg and the net value of a tranche,
 * 0 to tranches (the index), at a default count, 0 to names. Writes nothing.
 * Refusals 1 to 12, 14, 21 and 25.
 */
struct lavroudem_valued lavroudem_value(
    struct lavroudem_walk walk,
    struct lavroudem_sheet sheet,
    const uint64_t *numbers, size_t numbers_length,
    const uint8_t *register_bytes, size_t register_length,
    const uint64_t *defaults, size_t defaults_length,
    const uint64_t *premiums, size_t premiums_length,
    size_t tranche, size_t count);

/*
 * Answers how much of the index, in millionths of the whole pool's, hedges
 * the whole tranche against the next default, at a default count below names.
 * On rows as a walk leaves them it is negative only where an elapsed fraction
 * is not 0. Writes nothing. Refusals 1 to 12, 14 to 16, 21 and 25.
 */
struct lavroudem_hedged lavroudem_hedge_ratio(
    struct lavroudem_walk walk,
    struct lavroudem_sheet sheet,
    const uint64_t *numbers, size_t numbers_length,
    const uint8_t *register_bytes, size_t register_length,
    const uint64_t *defaults, size_t defaults_length,
    const uint64_t *premiums, size_t premiums_length,
    size_t tranche, size_t count);

/*
 * Writes to a row of names + 1 entries the chance, in billionths, of each
 * default count after so many steps from no default. It needs no walk.
 * Refusals 1 to 10, 13, 21 and 25.
 */
uint8_t lavroudem_forward(
    struct lavroudem_sheet sheet,
    const uint64_t *numbers, size_t numbers_length,
    const uint8_t *register_bytes, size_t register_length,
    uint64_t *row, size_t row_length,
    size_t steps);

/*
 * A packed coupon, as a ledger sends it, is an image of LAVROUDEM_PACKED_LENGTH
 * bytes: two decimal digits a byte, the high half byte first, and the most
 * significant byte first. So 1,234,567 is 01 23 45 67. Each coupon up to
 * LAVROUDEM_MAX_COUPON has one image, and its image alone is read as it.
 * packed.c reads and writes some. Neither call needs a sheet or a register.
 */

/* Answers the coupon of an image. Writes nothing. Refusals 2, 30 and 8. */
struct lavroudem_unpacked lavroudem_read_packed(const uint8_t *image, size_t image_length);

/* Writes the image of a coupon, all its bytes. Refusals 2 and 8. */
uint8_t lavroudem_write_packed(uint8_t *image, size_t image_length, uint64_t coupon);

/*
 * Adds up a book. Position k is entry k of both lists: a nominal, at most
 * LAVROUDEM_MAX_NOMINAL from 0 on either side, and a net value, at most
 * LAVROUDEM_MAX_NET_VALUE from 0, as all are that a value call answers. It is
 * worth the product of the two. Writes to the start of `out`
 *
 *     book 0 TOTAL GAINS LOSSES
 *
 * and a line feed: what all positions are worth, what those above 0 are, and
 * what those below 0 are, which is 0 or less. All three are exact, to the last
 * digit, and may have more than 64 bits; the total is the sum of the other two.
 * The order of the positions makes no difference. The line of no positions is
 * `book 0 0 0 0`.
 *
 * Answers the length of the line. The bytes of `out` beyond it keep what they
 * held; no zero is put at its end. Refuses with 2 where `out` has not just
 * LAVROUDEM_BOOK_LENGTH bytes; then with 28 where one list is longer than the
 * other, both are longer than LAVROUDEM_MAX_POSITIONS, or an entry is out of its
 * range. It needs no sheet and no register. book.c adds up some.
 */
struct lavroudem_booked lavroudem_book(
    const int64_t *nominals, size_t nominals_length,
    const int64_t *values, size_t values_length,
    uint8_t *out, size_t out_length);

/*
 * Whose turn it is among open walks, so that a long one keeps none of the others
 * waiting. A table has 1 to LAVROUDEM_MAX_WALKS records, each with a walk and its
 * steps left, at most LAVROUDEM_MAX_STEPS. Its places are counted from 0, and
 * `place` is the one served last. To the first call bring the place before the
 * one that is to come first, or the last of the table for place 0.
 *
 * A turn goes to the next place after the one served last, round the table, that
 * has steps left: it is written to `list`, from the start on, and one of its
 * steps left is taken off. The call ends where the list is full or no steps are
 * left. Answers how many places it wrote, and the place served last, which is
 * the last one written, or `place` if none was. The list beyond them keeps what
 * it held, and so does all of the table but the steps left. Whether a walk is
 * open, and where it stands, is not looked at.
 *
 * The caller then takes each walk of the list back by 1, one entry after the
 * other, and puts the walk that comes back into its record. If only these calls
 * write steps left and place, then whenever a walk has another turn, all other
 * walks that still have steps left have had just one since its last turn, be it
 * in this call or in an earlier one.
 *
 * Refuses with 29, and checks nothing else, where the table is empty or too
 * long, `place` lies outside of it, the steps left of a record are too many, or
 * the list has more than LAVROUDEM_MAX_PLACES bytes. A list of no bytes is
 * accepted, and no place is written. It needs no sheet and no register. turns.c
 * serves five walks.
 */
struct lavroudem_allotted lavroudem_turns(
    struct lavroudem_turn *table, size_t table_length,
    size_t place,
    uint8_t *list, size_t list_length);

/* The bytes that must be lent for the listing of a deck of so many bytes. */
size_t lavroudem_deck_room(size_t deck_length);

/*
 * Runs a deck on a blank register of its own, writes its listing to the start
 * of `out`, and answers the bytes written. Where `out` is shorter than the
 * room of the deck it writes nothing and answers LAVROUDEM_NO_ROOM. A sheet of
 * a deck has one period, and elapsed fractions of 0 if it enters none.
 */
#define LAVROUDEM_NO_ROOM SIZE_MAX
size_t lavroudem_run_deck(const uint8_t *deck, size_t deck_length, uint8_t *out, size_t out_length);

/*
 * The same on a register of any length, which is left as the deck leaves it.
 * Without room the register keeps every byte too. A register that is kept is
 * lent as a copy: then each line `issue 0` and `withdraw 0` of the listing is
 * one write, in their order, on the disk before the line is shown.
 */
size_t lavroudem_run_on(
    const uint8_t *deck, size_t deck_length,
    uint8_t *register_bytes, size_t register_length,
    uint8_t *out, size_t out_length);

/* ---- the layout of the archive, in bytes */

#define LAVROUDEM_SIZE(type, bytes) \
    static_assert(sizeof(struct type) == (bytes), "size of " #type)
#define LAVROUDEM_OFFSET(type, field, bytes) \
    static_assert(offsetof(struct type, field) == (bytes), "offset of " #type "." #field)

static_assert(sizeof(size_t) == 8 && sizeof(void *) == 8, "the archive is for 64 bits");
static_assert(sizeof(bool) == 1, "a bool is a byte");

LAVROUDEM_SIZE(lavroudem_pool, 40);
LAVROUDEM_OFFSET(lavroudem_pool, names, 0);
LAVROUDEM_OFFSET(lavroudem_pool, steps, 8);
LAVROUDEM_OFFSET(lavroudem_pool, tranches, 16);
LAVROUDEM_OFFSET(lavroudem_pool, recovery, 24);
LAVROUDEM_OFFSET(lavroudem_pool, number, 32);

LAVROUDEM_SIZE(lavroudem_span, 16);
LAVROUDEM_OFFSET(lavroudem_span, at, 0);
LAVROUDEM_OFFSET(lavroudem_span, length, 8);

LAVROUDEM_SIZE(lavroudem_sheet, 152);
LAVROUDEM_OFFSET(lavroudem_sheet, pool, 0);
LAVROUDEM_OFFSET(lavroudem_sheet, attachments, 40);
LAVROUDEM_OFFSET(lavroudem_sheet, starts, 56);
LAVROUDEM_OFFSET(lavroudem_sheet, hazards, 72);
LAVROUDEM_OFFSET(lavroudem_sheet, discounts, 88);
LAVROUDEM_OFFSET(lavroudem_sheet, accruals, 104);
LAVROUDEM_OFFSET(lavroudem_sheet, elapsed, 120);
LAVROUDEM_OFFSET(lavroudem_sheet, coupons, 136);

LAVROUDEM_SIZE(lavroudem_walk, 16);
LAVROUDEM_OFFSET(lavroudem_walk, open, 0);
LAVROUDEM_OFFSET(lavroudem_walk, number, 1);
LAVROUDEM_OFFSET(lavroudem_walk, position, 8);

LAVROUDEM_SIZE(lavroudem_turn, 24);
LAVROUDEM_OFFSET(lavroudem_turn, walk, 0);
LAVROUDEM_OFFSET(lavroudem_turn, left, 16);

LAVROUDEM_SIZE(lavroudem_opened, 24);
LAVROUDEM_OFFSET(lavroudem_opened, refusal, 0);
LAVROUDEM_OFFSET(lavroudem_opened, walk, 8);

LAVROUDEM_SIZE(lavroudem_moved, 32);
LAVROUDEM_OFFSET(lavroudem_moved, refusal, 0);
LAVROUDEM_OFFSET(lavroudem_moved, position, 8);
LAVROUDEM_OFFSET(lavroudem_moved, walk, 16);

LAVROUDEM_SIZE(lavroudem_valued, 48);
LAVROUDEM_OFFSET(lavroudem_valued, refusal, 0);
LAVROUDEM_OFFSET(lavroudem_valued, default_leg, 8);
LAVROUDEM_OFFSET(lavroudem_valued, premium_leg, 16);
LAVROUDEM_OFFSET(lavroudem_valued, net_value, 24);
LAVROUDEM_OFFSET(lavroudem_valued, walk, 32);

LAVROUDEM_SIZE(lavroudem_hedged, 32);
LAVROUDEM_OFFSET(lavroudem_hedged, refusal, 0);
LAVROUDEM_OFFSET(lavroudem_hedged, ratio, 8);
LAVROUDEM_OFFSET(lavroudem_hedged, walk, 16);

LAVROUDEM_SIZE(lavroudem_unpacked, 16);
LAVROUDEM_OFFSET(lavroudem_unpacked, refusal, 0);
LAVROUDEM_OFFSET(lavroudem_unpacked, coupon, 8);

LAVROUDEM_SIZE(lavroudem_booked, 16);
LAVROUDEM_OFFSET(lavroudem_booked, refusal, 0);
LAVROUDEM_OFFSET(lavroudem_booked, length, 8);

LAVROUDEM_SIZE(lavroudem_allotted, 24);
LAVROUDEM_OFFSET(lavroudem_allotted, refusal, 0);
LAVROUDEM_OFFSET(lavroudem_allotted, count, 8);
LAVROUDEM_OFFSET(lavroudem_allotted, place, 16);

#ifdef __cplusplus
}
#endif

#endif
