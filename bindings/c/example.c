/* Builds a table, checks it, reads it back and searches it. */
#include <inttypes.h>
#include <stdio.h>
#include <sirbolta.h>

enum { WORK = 16384, SAMPLES = 2047, TABLE = 4608 };

static uint32_t work[WORK], table[TABLE], positions[SAMPLES];
static uint8_t drive[SAMPLES];

int main(void) {
    if (sirbolta_interface() != SIRBOLTA_INTERFACE) {
        fprintf(stderr, "the interface number of the library is %" PRIu32 ", that of the header %d\n", sirbolta_interface(), SIRBOLTA_INTERFACE);
        return 1;
    }
    const uint8_t abab[4] = {'a', 'b', 'a', 'b'};
    size_t words = sirbolta_build(abab, 4, 40, work, WORK, table, TABLE).count;
    printf("%" PRIu64 " rules\n", sirbolta_check(table, words, work, WORK).count);

    sirbolta_reply reading = sirbolta_read(table, words, work, WORK, drive, SAMPLES);
    printf("chair %" PRIu32 ", %" PRIu64 " samples\n", reading.chair, reading.count);

    sirbolta_search_reply found = sirbolta_locate(table, words, 0, abab, 2, work, WORK, positions, SAMPLES);
    printf("ab begins at");
    for (uint64_t i = 0; i < found.count; i++) printf("%s%" PRIu32, i ? ", " : " [", positions[i]);
    printf("]\n%" PRIu64 " tests\n", found.tests);

    sirbolta_reply refused = sirbolta_extract(table, words, 4, 1, work, WORK, drive, SAMPLES);
    if (refused.number == 8) printf("refused 8: the range or position reaches past the end of the text\n");
    return 0;
}
