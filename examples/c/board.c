/* Sizes the sheet in a file and prints its board as the reader does: board FILE. A refusal is an answer too, with status 0; a file that
 * cannot be read is one line on standard error, with status 1. */
#include <errno.h>
#include <inttypes.h>
#include <stdio.h>
#include <string.h>

#include "torrivask.h"

/* As many as a board has tracks at most, so that no sheet is refused for want of sizes. */
#define MOST_TRACKS 256

/* One byte more than the longest sheet has. What is longer is refused from these bytes as it would be from all. */
#define MOST_BYTES (TORRIVASK_LONGEST_SHEET + 1)

/* How many bytes of the file were read, or -1, with errno to say why. */
static long read_file(const char *name, uint8_t *into, size_t most)
{
    FILE *file = fopen(name, "rb");
    if (file == NULL) {
        return -1;
    }
    size_t length = fread(into, 1, most, file);
    int why = ferror(file) ? errno : 0;
    fclose(file);
    errno = why;
    return why == 0 ? (long)length : -1;
}

static void print_board(const uint8_t *sheet, size_t length)
{
    uint32_t sizes[MOST_TRACKS][2];
    uint32_t tracks, rounds;
    bool definite;
    int32_t free_dots;
    uint64_t place;
    uint32_t refused = torrivask_board(sheet, length, sizes, MOST_TRACKS, &tracks, &definite, &free_dots, &rounds, &place);
    if (refused != 0) {
        printf("refused %" PRIu32 " at %" PRIu64 "\n", refused, place);
        return;
    }
    printf("tracks %" PRIu32 " free ", tracks);
    if (definite) {
        printf("%" PRId32, free_dots);
    } else {
        printf("none");
    }
    printf(" rounds %" PRIu32 "\n", rounds);
    for (uint32_t t = 0; t < tracks; t++) {
        printf("%" PRIu32 " %" PRIu32 " %" PRIu32 "\n", t, sizes[t][0], sizes[t][1]);
    }
}

int main(int words, char **word)
{
    static uint8_t sheet[MOST_BYTES];
    if (words != 2) {
        fprintf(stderr, "board: one file name was expected\n");
        return 1;
    }
    long length = read_file(word[1], sheet, sizeof sheet);
    if (length < 0) {
        fprintf(stderr, "board: %s: %s\n", word[1], strerror(errno));
        return 1;
    }
    print_board(sheet, (size_t)length);
    return 0;
}
