/*
 * Issues or withdraws a number of a register that is kept in a file:
 *
 *     kept REGISTER issue NUMBER
 *     kept REGISTER withdraw NUMBER
 *
 * The answer is printed only when it is on the disk.
 */
#define _DEFAULT_SOURCE
#include <errno.h>
#include <fcntl.h>
#include <stdio.h>
#include <stdlib.h>
#include <string.h>
#include <sys/file.h>
#include <sys/stat.h>
#include <unistd.h>

#include "lavroudem.h"

static void fail(const char *fault)
{
    fprintf(stderr, "%s\n", fault);
    exit(EXIT_FAILURE);
}

/* 256 for what is no number of a sheet. */
static unsigned long number_in(const char *text)
{
    if (strspn(text, "0123456789") != strlen(text) || *text == '\0' || strlen(text) > 3) {
        return 256;
    }
    const unsigned long number = strtoul(text, NULL, 10);
    return number > 255 ? 256 : number;
}

/* The register would be given a closed descriptor, and be printed into. */
static void check_descriptors(void)
{
    for (int descriptor = 0; descriptor <= 2; descriptor++) {
        if (fcntl(descriptor, F_GETFD) < 0) {
            exit(EXIT_FAILURE);
        }
    }
}

/* Locked until the program ends. */
static int open_register(const char *path, uint8_t *bytes)
{
    const int file = open(path, O_RDWR | O_CLOEXEC);
    if (file < 0) {
        fail(strerror(errno));
    }
    if (flock(file, LOCK_EX | LOCK_NB) != 0) {
        fail(errno == EWOULDBLOCK ? "the register is in use" : strerror(errno));
    }
    struct stat found;
    if (fstat(file, &found) != 0 || found.st_size != LAVROUDEM_REGISTER_LENGTH
        || pread(file, bytes, LAVROUDEM_REGISTER_LENGTH, 0) != LAVROUDEM_REGISTER_LENGTH) {
        fail("not a register");
    }
    /* A read may come from a cache that is ahead of the disk. */
    if (pwrite(file, bytes, LAVROUDEM_REGISTER_LENGTH, 0) != LAVROUDEM_REGISTER_LENGTH
        || fdatasync(file) != 0) {
        fail("the register is in doubt");
    }
    return file;
}

int main(int argc, char **argv)
{
    check_descriptors();
    const unsigned long number = argc == 4 ? number_in(argv[3]) : 256;
    const bool issue = argc == 4 && strcmp(argv[2], "issue") == 0;
    const bool withdraw = argc == 4 && strcmp(argv[2], "withdraw") == 0;
    if (number == 256 || issue == withdraw) {
        fail("usage: kept REGISTER issue|withdraw NUMBER");
    }
    uint8_t bytes[LAVROUDEM_REGISTER_LENGTH];
    const int file = open_register(argv[1], bytes);

    const unsigned refusal = issue ? lavroudem_issue(LAVROUDEM_LENT(bytes), (uint8_t)number)
                                   : lavroudem_withdraw(LAVROUDEM_LENT(bytes), (uint8_t)number);
    /* An accepted call: its byte, on the disk, before the answer. */
    if (refusal == LAVROUDEM_ACCEPTED
        && (pwrite(file, &bytes[number], 1, (off_t)number) != 1 || fdatasync(file) != 0)) {
        fail("the register is in doubt");
    }
    /* A line that was lost on its way out is in no buffer any more. */
    if (printf("%s %lu: %u, %s\n", argv[2], number, refusal, lavroudem_word(refusal)) < 0
        || fflush(stdout) != 0 || ferror(stdout)) {
        fail("output lost; the register was written all the same");
    }
    return EXIT_SUCCESS;
}
