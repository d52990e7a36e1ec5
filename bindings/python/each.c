/*
 * Counting in many tables by one call: a loop over the proved count, so that Python's threads hand the interpreter's lock over once for all of them.
 * Not proved, as nothing in this folder is. Each table has a length, in words, and gets the reply of sirbolta_count; form is that of all of them.
 */
#include "sirbolta.h"

void sirbolta_count_each(const uint32_t *const *tables, const size_t *lengths, size_t number, uint32_t form, const uint8_t *pattern, size_t pattern_len,
                         uint32_t *work, size_t work_len, sirbolta_search_reply *replies)
{
    for (size_t i = 0; i < number; i++)
        replies[i] = sirbolta_count(tables[i], lengths[i], form, pattern, pattern_len, work, work_len);
}
