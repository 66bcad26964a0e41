/* The times of a directory's symbolic links, as the values of its attributes have them. */
#ifndef LINK_VALUES_H
#define LINK_VALUES_H

#include "bridge.h"

enum {
    VALUES = 48,           /* such attributes of a directory */
    VALUE_BYTES = 1024,    /* of one */
    ATTRIBUTES = 63,       /* all that a directory has, but for its own times */
};

/* A link that has a time, and in which of the values it stands. */
struct link {
    struct timespec time;
    unsigned value;
    char name[];
};

struct link_times {
    struct link **links;       /* in the order of their names */
    size_t count, room;
    size_t bytes[VALUES];      /* of each value, as it is to be */
    uint64_t there;            /* the values that the engine has, a bit for each */
    uint64_t doubled;          /* those with names that a later one has too */
    uint64_t stale;            /* those that the engine has otherwise */
    unsigned others;           /* attributes beside these and the directory's own times */
    unsigned sure;             /* the epoch in which that is so, or 0 */
};

static inline uint64_t bit(unsigned value)
{
    return UINT64_C(1) << value;
}

static inline bool is_same(const struct timespec *one, const struct timespec *other)
{
    return one->tv_sec == other->tv_sec && one->tv_nsec == other->tv_nsec;
}

/* A link by its name, or none; `times` may be none, too. */
const struct link *link_at(const struct link_times *times, const char *name);
/* Takes what a value says; false where there is no memory for it. */
bool link_value_read(struct link_times *times, unsigned value, const char *text, size_t length);
/* A value as it is to be, with room for VALUE_BYTES; how many bytes it has. */
size_t link_value_text(const struct link_times *times, unsigned value, char *text);
/* A link that isn't there, where there is room for it; and one that is. */
void link_add(struct link_times *times, const char *name, const struct timespec *time);
void link_drop(struct link_times *times, const char *name);

#endif
