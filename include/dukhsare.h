/* The check of a configuration text, for C. */
#ifndef DUKHSARE_H
#define DUKHSARE_H

#include <stddef.h>
#include <stdint.h>

#ifdef __cplusplus
extern "C" {
#endif

/* What dukhsare_check answers where there is no memory to check a text in. */
#define DUKHSARE_NO_MEMORY UINT32_C(4294967295)

/*
 * Checks the configuration text of `length` bytes at `text`.
 *
 * Answers 0 for a text that is right. For any other it answers
 * refusal * 10000000 + line * 100 + field, where lines and fields count
 * from 1 and field is 0 where the line is wrong as a whole:
 *
 *   1  a line of names is missing or different (line 0: the text has more
 *      than 16384 bytes)
 *   2  a wrong number of fields, a field that is no number, or a kind that
 *      is neither word
 *   3  a number outside its range, a parent out of order, a line missing or
 *      too many
 *   4  a map row that clashes with one before it or names a parent that is
 *      not listed
 *
 * `text` is not null, and its bytes are only read.
 */
uint32_t dukhsare_check(const uint8_t *text, size_t length);

#ifdef __cplusplus
}
#endif

#endif
