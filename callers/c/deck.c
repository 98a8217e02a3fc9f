/* Runs the deck on standard input and prints its listing. */
#include <stdio.h>
#include <stdlib.h>

#include "lavroudem.h"

int main(void)
{
    /* One byte more than a deck may have, so that a longer one is seen as such. */
    static uint8_t deck[LAVROUDEM_MAX_DECK + 1];
    const size_t length = fread(deck, 1, sizeof deck, stdin);
    if (ferror(stdin)) {
        fputs("the deck can't be read\n", stderr);
        return EXIT_FAILURE;
    }

    const size_t room = lavroudem_deck_room(length);
    uint8_t *listing = malloc(room);
    if (listing == NULL) {
        fputs("no memory for the listing\n", stderr);
        return EXIT_FAILURE;
    }
    /* With that room lent, LAVROUDEM_NO_ROOM is never answered. */
    const size_t printed = lavroudem_run_deck(deck, length, listing, room);
    const size_t written = fwrite(listing, 1, printed, stdout);
    free(listing);
    /* What is still in a buffer is not yet written. */
    if (written != printed || fflush(stdout) != 0) {
        fputs("output lost\n", stderr);
        return EXIT_FAILURE;
    }
    return EXIT_SUCCESS;
}
