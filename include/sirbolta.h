/*
 * Sirbolta: a drive stored as its Lyndon grammar, checked, read back and searched.
 *
 * A text is a drive, as it was recorded or rearranged: 0 to 2,047 samples of one byte. A pattern is 1 to 2,047 samples. A table is what
 * sirbolta_build writes: words of 32 bits, at most 4,608. Positions count from 0. Samples are compared as signed numbers, a byte of 128 or
 * more meaning itself minus 256; strings at the first different sample or as a proper prefix, which is the smaller; a Lyndon word is not
 * empty, and smaller than each of its proper suffixes but the empty one.
 *
 * A drive may be rearranged to steps before its table is built: the first sample is kept, and each later one becomes a step, its difference
 * from the one before, modulo 256. The table does not say that it holds steps. The caller says so, by form, to sirbolta_count and
 * sirbolta_locate; every other function takes the text as it stands.
 *
 * A profile drive is that of a switch joystick: byte 0 is rest, 1 to 8 are the headings. It is not empty, begins and ends at rest, and has no
 * byte above 8, read as an unsigned number. A profile table is the table of such a drive, and every function takes it.
 * sirbolta_build_profile and sirbolta_check_profile refuse all other drives and tables.
 *
 * A former table is one that was built while samples were compared as unsigned numbers. sirbolta_to_signed takes former tables and no
 * others; every other function refuses them by 7, unless all samples of the text are below 128 or none is: the two orders then give the
 * same table.
 *
 * A slice is a pointer and a length in entries; a null pointer with length 0 is fine. The caller sees to it that
 *   - each pointer is valid for its length, and a pointer to words is aligned to 4 bytes;
 *   - the slices that are written, work, result, runs and counts, overlap neither one another nor an input.
 * Everything else is checked. Inputs are never written, nothing is allocated and nothing is kept between calls, so threads may call at the
 * same time, each with slices of its own. Reading back and locating take up to 240 KiB of stack, a census up to 280, every other service less
 * than 4 KiB: some C libraries give a thread 128 KiB, so a thread for these three is started with more (pthread_attr_setstacksize).
 *
 * A reply's number is 0 on success; otherwise it is the first in this list that is met and concerns the service:
 *
 *   1  text too long       the text has more than 2,047 samples                        build, build_profile, to_steps, from_steps
 *  11  off heading         a byte of the text is above 8                               build_profile
 *  12  not at rest         the text is empty, or its first or last byte is not 0       build_profile
 *   2  pattern empty       the pattern has no sample                                   count, locate, live_cuts
 *   3  pattern too long    the pattern has more than 2,047 samples                     count, locate, live_cuts
 *  10  no step             the pattern has one sample, and form says steps             count, locate
 *  13  odd window          q is below 1 or above 8                                     census
 *   4  work too short      the work slice has fewer than 16,384 words                  all with a work slice
 *   5  table length        the table has no word, an odd number, or more than 4,608    all with a table
 *   6  bad word            a word of the table is bad                                  all with a table
 *   7  not a table         no bad word, yet the table of no text and chair number      all with a table but to_signed
 *                          no bad word, yet the former table of none                   to_signed
 *  11  off heading         a byte of the table's text is above 8                       check_profile
 *  12  not at rest         that text is empty, or its first or last byte is not 0      check_profile
 *   8  range past the end  start + length is above the text's length (it never wraps)  extract
 *                          the position is not below the text's length                 lyndon_length
 *   9  result too short    the result slice has fewer entries than the result          all with a result slice
 *                          runs has fewer than q bytes, or counts than 1 word, a run   census
 *
 * So 11 and 12 come behind 1 and before 4 when building, and behind 7 when checking.
 *
 * Place is the lowest index of a bad word for 6, the entries needed for 9 (by a census: the number of runs), the lowest index of a byte above 8
 * for 11, otherwise 0. Count is what the service says on success, 0 when it refuses. Chair is the chair number where sirbolta_read succeeds,
 * otherwise 0.
 *
 * The result slice afterwards: on success the result stands at its front and the rest is as it was; after a refusal all is as it was. Of runs
 * and counts the same holds: where either is too short, both are as they were.
 * The work slice afterwards: after a refusal that stands above 7 in the list it is as it was, so also after 11 and 12 when building; after the
 * others, so also after 11 and 12 when checking, and after success its first 16,384 words are 0 and the rest is as it was.
 * What they held before plays no part.
 */
#ifndef SIRBOLTA_H
#define SIRBOLTA_H

#include <stddef.h>
#include <stdint.h>

#ifdef __cplusplus
extern "C" {
#endif

/*
 * The number of this interface. It goes up whenever a function's parameters or the fields of a reply change; the soname of the shared library ends with it. A program
 * that may meet another library than this header's compares the number with what sirbolta_interface answers, before any other call.
 */
#define SIRBOLTA_INTERFACE 3
uint32_t sirbolta_interface(void);

typedef struct { uint32_t number; uint32_t chair; uint64_t place; uint64_t count; } sirbolta_reply;

/*
 * What counting and locating reply with. Tests: how many tests the search makes. A test is a pair rule of the table, one with a left and a right half, together
 * with a cut of the pattern that sirbolta_live_cuts lists, where the left half has at least as many symbols as the pattern has samples before the cut, and the
 * right half at least as many as it has from the cut on. Symbols are the samples and the mark, which stands before them. A rule counts once, however often its
 * string stands in the text. A pattern of one sample has no test; one of m samples in a text of n has at most n + 2 - m, none where that would be negative.
 * Where the table holds steps, the pattern's m - 1 steps are the pattern here: at most n + 3 - m.
 */
typedef struct { uint32_t number; uint32_t chair; uint64_t place; uint64_t count; uint64_t tests; } sirbolta_search_reply;

/*
 * What a table holds, as form says: steps if bit 0 is set, otherwise samples. Other bits are not looked at.
 *
 * Where it holds steps, a pattern of m samples is searched by its m - 1 steps. It is found at each position of the drive, as it was before it was rearranged,
 * from which the same steps follow: in 5, 7, 9, 3, 5 the pattern 0, 2 is found at 0, 1 and 3. The kept first sample is never a step. Cuts and tests are those of
 * the m - 1 steps, taken as a pattern.
 */
#define SIRBOLTA_STEPS 1

/* Writes the table of a text and a chair number. Count: the words written, two a rule. */
sirbolta_reply sirbolta_build(const uint8_t *text, size_t text_len, uint16_t chair, uint32_t *work, size_t work_len, uint32_t *result, size_t result_len);

/* Whether these words are the table of some text and chair number. Count: the rules. */
sirbolta_reply sirbolta_check(const uint32_t *table, size_t table_len, uint32_t *work, size_t work_len);

/* Writes the text of a table. Count: the samples written. Chair: the chair number. */
sirbolta_reply sirbolta_read(const uint32_t *table, size_t table_len, uint32_t *work, size_t work_len, uint8_t *result, size_t result_len);

/* Writes the part of the text that begins at start and has length samples. Count: the samples written. */
sirbolta_reply sirbolta_extract(const uint32_t *table, size_t table_len, size_t start, size_t length, uint32_t *work, size_t work_len, uint8_t *result, size_t result_len);

/*
 * Count: how often the pattern begins in the text or, where the table holds steps, is found in the drive, overlapping occurrences included. Tests: those of the
 * search, 0 when it refuses.
 */
sirbolta_search_reply sirbolta_count(const uint32_t *table, size_t table_len, uint32_t form, const uint8_t *pattern, size_t pattern_len, uint32_t *work, size_t work_len);

/*
 * Writes the positions at which the pattern begins in the text or, where the table holds steps, is found in the drive, rising, each once. Count: the positions
 * written. Tests: those of the search, 0 when it refuses, by 9 too.
 */
sirbolta_search_reply sirbolta_locate(const uint32_t *table, size_t table_len, uint32_t form, const uint8_t *pattern, size_t pattern_len, uint32_t *work, size_t work_len, uint32_t *result, size_t result_len);

/*
 * Writes the live cuts of the pattern that a search tries, rising, each once, at most 11. Count: the cuts written.
 *
 * A cut splits the pattern before a sample that is not the first; its tail is the samples from there on. It is live if its tail is not the
 * greater where it first differs from any other cut's tail. A live cut is left out if the samples from an earlier cut up to it are a Lyndon
 * word, and its tail begins with that word and is longer: where a pattern straddles the join of a rule's two halves, it is never cut there.
 */
sirbolta_reply sirbolta_live_cuts(const uint8_t *pattern, size_t pattern_len, uint32_t *result, size_t result_len);

/* Count: the length of the longest Lyndon word that begins at position in the text. */
sirbolta_reply sirbolta_lyndon_length(const uint32_t *table, size_t table_len, size_t position, uint32_t *work, size_t work_len);

/* Writes the length of the longest Lyndon word that begins at each position of the text. Count: the lengths written. */
sirbolta_reply sirbolta_lyndon_array(const uint32_t *table, size_t table_len, uint32_t *work, size_t work_len, uint32_t *result, size_t result_len);

/* Writes the table of the text and the chair number of a former table. Count: the words written, two a rule. */
sirbolta_reply sirbolta_to_signed(const uint32_t *table, size_t table_len, uint32_t *work, size_t work_len, uint32_t *result, size_t result_len);

/* Writes a drive rearranged to steps: its first sample, then the step to each later one. Count: the samples written. */
sirbolta_reply sirbolta_to_steps(const uint8_t *text, size_t text_len, uint8_t *result, size_t result_len);

/* Writes the drive that sirbolta_to_steps rearranges to this text. Count: the samples written. */
sirbolta_reply sirbolta_from_steps(const uint8_t *text, size_t text_len, uint8_t *result, size_t result_len);

/* Writes the table of a profile drive and a chair number, which is what sirbolta_build writes of them. Count: the words written, two a rule. */
sirbolta_reply sirbolta_build_profile(const uint8_t *text, size_t text_len, uint16_t chair, uint32_t *work, size_t work_len, uint32_t *result, size_t result_len);

/* Whether these words are the table of some profile drive and chair number. Count: the rules. */
sirbolta_reply sirbolta_check_profile(const uint32_t *table, size_t table_len, uint32_t *work, size_t work_len);

/*
 * The census of the text: writes every run of q samples, 1 to 8, that stand in it one after the other, each run once, in the order of signed samples, q bytes each
 * to the front of runs; and how often each begins in the text, overlapping ones included, to the front of counts. Count: the runs. The counts add up to the text's
 * length - q + 1, or to 0 where it has fewer than q samples. No text has more than 2,046 runs, nor runs of more than 16,320 bytes in all.
 */
sirbolta_reply sirbolta_census(const uint32_t *table, size_t table_len, size_t q, uint32_t *work, size_t work_len, uint8_t *runs, size_t runs_len, uint32_t *counts, size_t counts_len);

#ifdef __cplusplus
}
#endif

#endif
