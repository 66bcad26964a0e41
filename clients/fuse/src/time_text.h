/* Numbers and times as the bridge's attributes have them. A time is its seconds since 1970, a point
   and nine digits. */
#ifndef TIME_TEXT_H
#define TIME_TEXT_H

#include <stddef.h>
#include <stdint.h>
#include <time.h>

enum { NUMBER_BYTES = 20, TIME_BYTES = 30 };  /* the most that one has */

/* Writes one; where it ends. */
char *put_number(char *at, uint64_t number);
char *put_time(char *at, const struct timespec *time);
/* Reads one that begins at a place; where it ends, or NULL where none stands there. */
const char *take_number(const char *at, const char *end, uint64_t *number);
const char *take_time(const char *at, const char *end, struct timespec *time);

#endif
