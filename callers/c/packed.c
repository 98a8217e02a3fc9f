/*
 * Reads the coupons of a ledger as it packs them, and prints each, or why it is
 * refused. Then raises the first and the highest and prints the images that go
 * back; the highest may not rise, and its image stays.
 */
#include <inttypes.h>
#include <stdio.h>
#include <stdlib.h>

#include "lavroudem.h"

enum { FULL = LAVROUDEM_PACKED_LENGTH };

/* As it came, which may be cut short. */
struct packed {
    size_t length;
    uint8_t image[FULL];
};

static const struct packed ledger[] = {
    {FULL, {0x01, 0x00, 0x00, 0x00}},
    {FULL, {0x00, 0x50, 0x00, 0x00}},
    {FULL, {0x10, 0x00, 0x00, 0x00}},
    {FULL, {0x00, 0x0A, 0x00, 0x00}},
    {FULL, {0x10, 0x00, 0x00, 0x01}},
    {FULL, {0x99, 0x99, 0x99, 0x9A}}, /* too high too, but digits are looked at first */
    {FULL - 1, {0x01, 0x00, 0x00}},
};

/* 12.5 basis points. */
static const uint64_t rise = 12500;

static void print_image(const uint8_t *image, size_t length)
{
    for (size_t at = 0; at < length; at++) {
        printf("%s%02X", at == 0 ? "" : " ", (unsigned)image[at]);
    }
}

static void print_refusal(unsigned refusal)
{
    printf("refusal %u, %s", refusal, lavroudem_word(refusal));
}

static void print_coupon(const struct packed *packed)
{
    const struct lavroudem_unpacked unpacked =
        lavroudem_read_packed(packed->image, packed->length);
    print_image(packed->image, packed->length);
    fputs(": ", stdout);
    if (unpacked.refusal == LAVROUDEM_ACCEPTED) {
        printf("coupon %" PRIu64, unpacked.coupon);
    } else {
        print_refusal(unpacked.refusal);
    }
    putchar('\n');
}

/* By value, so that the ledger keeps its own. */
static void print_raised(struct packed packed)
{
    const struct lavroudem_unpacked unpacked =
        lavroudem_read_packed(packed.image, packed.length);
    if (unpacked.refusal != LAVROUDEM_ACCEPTED) {
        fputs("a coupon to be raised is refused\n", stderr);
        exit(EXIT_FAILURE);
    }
    const uint64_t coupon = unpacked.coupon + rise;
    const unsigned refusal = lavroudem_write_packed(packed.image, packed.length, coupon);
    printf("coupon %" PRIu64 ": ", coupon);
    if (refusal != LAVROUDEM_ACCEPTED) {
        print_refusal(refusal);
        fputs("; the image stays ", stdout);
    }
    print_image(packed.image, packed.length);
    putchar('\n');
}

/* Whether all that was printed is out, also what stood in a buffer. */
static int told(void)
{
    if (fflush(stdout) != 0 || ferror(stdout)) {
        fputs("output lost\n", stderr);
        return EXIT_FAILURE;
    }
    return EXIT_SUCCESS;
}

int main(void)
{
    for (size_t row = 0; row < sizeof ledger / sizeof ledger[0]; row++) {
        print_coupon(&ledger[row]);
    }
    print_raised(ledger[0]);
    print_raised(ledger[2]);
    return told();
}
