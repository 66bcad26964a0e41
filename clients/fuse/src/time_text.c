/* Numbers and times as text. Each object that is made or looked at has three, so that printf(3) and
   scanf(3) took a good part of the bridge's time. */
#include "time_text.h"

#include <stdbool.h>
#include <string.h>

enum { SECOND_DIGITS = 19, PART_DIGITS = 9 };

char *put_number(char *at, uint64_t number)
{
    char digits[NUMBER_BYTES];
    size_t first = sizeof digits;
    do {
        digits[--first] = (char)('0' + number % 10);
        number /= 10;
    } while (number > 0);
    memcpy(at, digits + first, sizeof digits - first);
    return at + sizeof digits - first;
}

char *put_time(char *at, const struct timespec *time)
{
    uint64_t seconds = (uint64_t)time->tv_sec;
    uint32_t part = (uint32_t)time->tv_nsec;
    if (time->tv_sec < 0) {
        *at++ = '-';
        seconds = -seconds;
    }
    at = put_number(at, seconds);
    *at = '.';
    for (size_t i = PART_DIGITS; i > 0; i--, part /= 10)
        at[i] = (char)('0' + part % 10);
    return at + 1 + PART_DIGITS;
}

const char *take_number(const char *at, const char *end, uint64_t *number)
{
    const char *first = at;
    uint64_t sum = 0;
    for (; at < end && *at >= '0' && *at <= '9'; at++) {
        uint64_t digit = (uint64_t)(*at - '0');
        if (sum > (UINT64_MAX - digit) / 10)
            return NULL;
        sum = sum * 10 + digit;
    }
    *number = sum;
    return at > first && at - first <= NUMBER_BYTES ? at : NULL;
}

const char *take_time(const char *at, const char *end, struct timespec *time)
{
    bool is_before = at < end && *at == '-';
    uint64_t seconds, part;
    const char *first = at + is_before, *point = take_number(first, end, &seconds);
    if (!point || point - first > SECOND_DIGITS || seconds > (uint64_t)INT64_MAX + is_before
        || end - point < 1 + PART_DIGITS || *point != '.')
        return NULL;
    const char *after = point + 1 + PART_DIGITS;
    if (take_number(point + 1, after, &part) != after)
        return NULL;
    time->tv_sec = is_before && seconds > 0 ? -(int64_t)(seconds - 1) - 1 : (int64_t)seconds;
    time->tv_nsec = (long)part;
    return after;
}
