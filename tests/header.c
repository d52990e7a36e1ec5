/* The header as C sees it: the layout of the replies, the interface number, and calls of each function. */
#include "../include/sirbolta.h"

#include <stdio.h>
#include <string.h>

_Static_assert(sizeof(sirbolta_reply) == 24, "reply");
_Static_assert(offsetof(sirbolta_reply, chair) == 4, "chair");
_Static_assert(offsetof(sirbolta_reply, place) == 8, "place");
_Static_assert(offsetof(sirbolta_reply, count) == 16, "count");
_Static_assert(sizeof(sirbolta_search_reply) == 32, "search reply");
_Static_assert(offsetof(sirbolta_search_reply, chair) == 4, "chair");
_Static_assert(offsetof(sirbolta_search_reply, place) == 8, "place");
_Static_assert(offsetof(sirbolta_search_reply, count) == 16, "count");
_Static_assert(offsetof(sirbolta_search_reply, tests) == 24, "tests");

enum { WORK = 16384, WORDS = 12 };

static const uint32_t abab[WORDS] = {0x00000000, 0xC0000028, 0x00000062, 0xC0000000, 0x00000063, 0xC0000000,
                                     0x40000001, 0x80000002, 0x40000000, 0x80000003, 0x40000004, 0x80000003};
static const uint32_t lengths[4] = {2, 1, 2, 1};
static const uint32_t finds[3] = {0, 1, 3};
/* The table of the profile drive 0, 1, 0. */
static const uint32_t profile[WORDS] = {0x00000000, 0xC0000028, 0x00000001, 0xC0000000, 0x00000002, 0xC0000000,
                                        0x40000001, 0x80000002, 0x40000000, 0x80000003, 0x40000004, 0x80000001};
/* The table of the drive -1, 1, and its former one: there the first sample is the greater. */
static const uint32_t rising[10] = {0x00000000, 0xC0000028, 0x00000100, 0xC0000000, 0x00000002, 0xC0000000, 0x40000001, 0x80000002, 0x40000000, 0x80000003};
static const uint32_t former[10] = {0x00000000, 0xC0000028, 0x00000100, 0xC0000000, 0x40000000, 0x80000001, 0x00000002, 0xC0000000, 0x40000002, 0x80000003};
static uint32_t work[WORK];
static uint32_t words[WORDS];
static uint32_t table[2 * WORDS];
static uint8_t samples[5];
static uint32_t counts[2];
static int wrong;

static void want(const char *service, int right) {
    if (!right) {
        printf("header: %s answers something else\n", service);
        wrong = 1;
    }
}

static int is(sirbolta_reply r, uint32_t number, uint64_t place, uint64_t count, uint32_t chair) {
    return r.number == number && r.place == place && r.count == count && r.chair == chair;
}

static int found(sirbolta_search_reply r, uint32_t number, uint64_t place, uint64_t count, uint64_t tests) {
    return r.number == number && r.place == place && r.count == count && r.chair == 0 && r.tests == tests;
}

int main(void) {
    const uint8_t text[4] = {97, 98, 97, 98}, equal[4] = {97, 97, 97, 97}, drive[5] = {5, 7, 9, 3, 5}, steps[5] = {5, 2, 2, 250, 2}, motif[2] = {0, 2};
    const uint8_t turn[3] = {0, 1, 0}, off[4] = {1, 0, 9, 255};
    want("interface", sirbolta_interface() == SIRBOLTA_INTERFACE);
    want("build", is(sirbolta_build(text, 4, 40, work, WORK, words, WORDS), 0, 0, WORDS, 0) && memcmp(words, abab, sizeof abab) == 0);
    want("check", is(sirbolta_check(abab, WORDS, work, WORK), 0, 0, 6, 0));
    want("read", is(sirbolta_read(abab, WORDS, work, WORK, samples, 4), 0, 0, 4, 40) && memcmp(samples, text, 4) == 0);
    want("extract", is(sirbolta_extract(abab, WORDS, 1, 2, work, WORK, samples, 4), 0, 0, 2, 0) && samples[0] == 98 && samples[1] == 97);
    want("count", found(sirbolta_count(abab, WORDS, 0, text, 2, work, WORK), 0, 0, 2, 3));
    want("count of one sample", found(sirbolta_count(abab, WORDS, 0, text, 1, work, WORK), 0, 0, 2, 0));
    want("count of no sample", found(sirbolta_count(abab, WORDS, 0, text, 0, work, WORK), 2, 0, 0, 0));
    want("locate", found(sirbolta_locate(abab, WORDS, 0, text, 2, work, WORK, words, 2), 0, 0, 2, 3) && words[0] == 0 && words[1] == 2);
    want("locate, result too short", found(sirbolta_locate(abab, WORDS, 0, text, 2, work, WORK, words, 1), 9, 2, 0, 0));
    want("live_cuts", is(sirbolta_live_cuts(text, 4, words, 1), 0, 0, 1, 0) && words[0] == 2);
    want("live_cuts of equal samples", is(sirbolta_live_cuts(equal, 4, words, 2), 0, 0, 2, 0) && words[0] == 1 && words[1] == 3);
    want("lyndon_length", is(sirbolta_lyndon_length(abab, WORDS, 2, work, WORK), 0, 0, 2, 0));
    want("lyndon_array", is(sirbolta_lyndon_array(abab, WORDS, work, WORK, words, 4), 0, 0, 4, 0) && memcmp(words, lengths, sizeof lengths) == 0);
    want("to_signed", is(sirbolta_to_signed(former, 10, work, WORK, words, 10), 0, 0, 10, 0) && memcmp(words, rising, sizeof rising) == 0);
    want("to_signed of the signed table", is(sirbolta_to_signed(rising, 10, work, WORK, words, 10), 7, 0, 0, 0));
    want("a null table", is(sirbolta_check(NULL, 0, work, WORK), 5, 0, 0, 0));
    want("to_steps", is(sirbolta_to_steps(drive, 5, samples, 5), 0, 0, 5, 0) && memcmp(samples, steps, 5) == 0);
    want("to_steps, result too short", is(sirbolta_to_steps(drive, 5, samples, 4), 9, 5, 0, 0));
    want("from_steps", is(sirbolta_from_steps(steps, 5, samples, 5), 0, 0, 5, 0) && memcmp(samples, drive, 5) == 0);
    const size_t n = sirbolta_build(steps, 5, 40, work, WORK, table, 2 * WORDS).count;
    want("count by steps", found(sirbolta_count(table, n, SIRBOLTA_STEPS, motif, 2, work, WORK), 0, 0, 3, 0));
    want("count by steps, every bit set", found(sirbolta_count(table, n, 0xFFFFFFFF, motif, 2, work, WORK), 0, 0, 3, 0));
    want("count by samples, every other bit set", found(sirbolta_count(table, n, 0xFFFFFFFE, steps + 1, 2, work, WORK), 0, 0, 1, 5));
    want("count of one sample by steps", found(sirbolta_count(table, n, SIRBOLTA_STEPS, motif, 1, work, WORK), 10, 0, 0, 0));
    want("locate by steps", found(sirbolta_locate(table, n, SIRBOLTA_STEPS, motif, 2, work, WORK, words, 3), 0, 0, 3, 0) && memcmp(words, finds, sizeof finds) == 0);
    want("build_profile", is(sirbolta_build_profile(turn, 3, 40, work, WORK, words, WORDS), 0, 0, WORDS, 0) && memcmp(words, profile, sizeof profile) == 0);
    want("build_profile off heading", is(sirbolta_build_profile(off, 4, 40, work, WORK, words, WORDS), 11, 2, 0, 0));
    want("build_profile not at rest", is(sirbolta_build_profile(off, 2, 40, work, WORK, words, WORDS), 12, 0, 0, 0));
    want("build_profile of a null text", is(sirbolta_build_profile(NULL, 0, 40, NULL, 0, NULL, 0), 12, 0, 0, 0));
    want("check_profile", is(sirbolta_check_profile(profile, WORDS, work, WORK), 0, 0, 6, 0));
    want("check_profile off heading", is(sirbolta_check_profile(abab, WORDS, work, WORK), 11, 0, 0, 0));
    want("census", is(sirbolta_census(abab, WORDS, 2, work, WORK, samples, 4, counts, 2), 0, 0, 2, 0) && memcmp(samples, "abba", 4) == 0 && counts[0] == 2 && counts[1] == 1);
    want("census, runs too short", is(sirbolta_census(abab, WORDS, 2, work, WORK, samples, 3, counts, 2), 9, 2, 0, 0));
    want("census, counts too short", is(sirbolta_census(abab, WORDS, 2, work, WORK, samples, 4, counts, 1), 9, 2, 0, 0));
    want("census of a shorter text", is(sirbolta_census(abab, WORDS, 5, work, WORK, NULL, 0, NULL, 0), 0, 0, 0, 0));
    want("census of the runs of no sample", is(sirbolta_census(NULL, 0, 0, NULL, 0, NULL, 0, NULL, 0), 13, 0, 0, 0));
    want("census of runs of more than 8 samples", is(sirbolta_census(NULL, 0, SIZE_MAX, NULL, 0, NULL, 0, NULL, 0), 13, 0, 0, 0));
    if (!wrong) printf("header: 37 calls from C are right\n");
    return wrong;
}
