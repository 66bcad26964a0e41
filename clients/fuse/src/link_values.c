/* The times of a directory's symbolic links, as the values of its attributes have them: a time, and
   behind a slash each the names of the links that have it; behind two slashes the next time. What
   has another form says nothing. A link gets into a value with its time, where that has room. */
#include "link_values.h"
#include "time_text.h"

#include <stdlib.h>
#include <string.h>

enum { NAME_BYTES = 255 };

void link_times_free(struct link_times *times)
{
    for (size_t i = 0; times && i < times->count; i++)
        free(times->links[i]);
    if (times)
        free(times->links);
    free(times);
}

/* Names. */

static size_t place_of(const struct link_times *times, const char *name)
{
    size_t low = 0, high = times->count;
    while (low < high) {
        size_t middle = low + (high - low) / 2;
        if (strcmp(times->links[middle]->name, name) < 0)
            low = middle + 1;
        else
            high = middle;
    }
    return low;
}

const struct link *link_at(const struct link_times *times, const char *name)
{
    size_t at = times ? place_of(times, name) : 0;
    bool is_there = times && at < times->count && strcmp(times->links[at]->name, name) == 0;
    return is_there ? times->links[at] : NULL;
}

static bool has_room(struct link_times *times)
{
    if (times->count < times->room)
        return true;
    size_t room = times->room ? times->room * 2 : 16;
    struct link **links = realloc(times->links, room * sizeof *links);
    if (!links)
        return false;
    times->links = links;
    times->room = room;
    return true;
}

/* False where there is no memory for it. Where the name is there already, the later one counts. */
static bool put(struct link_times *times, const char *name, size_t length,
                const struct timespec *time, unsigned value)
{
    struct link *link = malloc(sizeof *link + length + 1);
    if (!link || !has_room(times)) {
        free(link);
        return false;
    }
    link->time = *time;
    link->value = value;
    memcpy(link->name, name, length);
    link->name[length] = 0;
    size_t at = place_of(times, link->name);
    struct link **place = &times->links[at];
    if (at < times->count && strcmp((*place)->name, link->name) == 0) {
        times->doubled |= bit((*place)->value);
        free(*place);
    } else {
        memmove(place + 1, place, (times->count - at) * sizeof *place);
        times->count++;
    }
    *place = link;
    return true;
}

/* Values that are written. */

static size_t time_text(const struct timespec *time, char *text)
{
    return (size_t)(put_time(text, time) - text);
}

static int compare(const void *one, const void *other)
{
    const struct link *a = *(struct link *const *)one, *b = *(struct link *const *)other;
    if (a->time.tv_sec != b->time.tv_sec)
        return a->time.tv_sec < b->time.tv_sec ? -1 : 1;
    if (a->time.tv_nsec != b->time.tv_nsec)
        return a->time.tv_nsec < b->time.tv_nsec ? -1 : 1;
    return strcmp(a->name, b->name);
}

/* By times and names in order. */
size_t link_value_text(const struct link_times *times, unsigned value, char *text)
{
    const struct link *found[VALUE_BYTES], *before = NULL;
    size_t count = 0, length = 0;
    for (size_t i = 0; i < times->count && count < VALUE_BYTES; i++)
        if (times->links[i]->value == value)
            found[count++] = times->links[i];
    qsort(found, count, sizeof *found, compare);
    for (size_t i = 0; i < count; before = found[i++]) {
        char time[TIME_BYTES];
        bool is_new = !before || !is_same(&before->time, &found[i]->time);
        size_t head = is_new ? time_text(&found[i]->time, time) : 0, gap = is_new && before ? 2 : 0;
        size_t name = strlen(found[i]->name);
        if (length + gap + head + 1 + name > VALUE_BYTES)
            break;
        memcpy(text + length, "//", gap);
        memcpy(text + length + gap, time, head);
        length += gap + head;
        text[length++] = '/';
        memcpy(text + length, found[i]->name, name);
        length += name;
    }
    return length;
}

static void count_bytes(struct link_times *times, unsigned value)
{
    char text[VALUE_BYTES];
    times->bytes[value] = link_value_text(times, value, text);
}

/* Values that are read. */

/* What no object can be called is passed over. */
static bool read_name(struct link_times *times, unsigned value, const struct timespec *time,
                      const char *name, size_t length)
{
    bool is_name = length > 0 && length <= NAME_BYTES && !memchr(name, 0, length);
    return !is_name || put(times, name, length, time, value);
}

/* One time and its names; false where there is no memory for them. */
static bool read_group(struct link_times *times, unsigned value, const char *text, size_t length)
{
    struct timespec time;
    const char *end = text + length, *at = memchr(text, '/', length);
    if (!at || take_time(text, at, &time) != at)
        return true;
    while (at < end) {
        const char *name = at + 1;
        at = memchr(name, '/', (size_t)(end - name));
        at = at ? at : end;
        if (!read_name(times, value, &time, name, (size_t)(at - name)))
            return false;
    }
    return true;
}

bool link_value_read(struct link_times *times, unsigned value, const char *text, size_t length)
{
    const char *end = text + length, *next = text;
    bool is_read = true;
    if (length > VALUE_BYTES)
        return true;
    while (is_read && next) {
        next = memmem(text, (size_t)(end - text), "//", 2);
        is_read = read_group(times, value, text, (size_t)((next ? next : end) - text));
        text = next ? next + 2 : end;
    }
    count_bytes(times, value);
    return is_read;
}

/* A value that has room for a link: one that has its time, or one that is there, or a new one, as
   long as there is room for the directory's own times. VALUES where none has. */
static unsigned value_for(const struct link_times *times, const struct timespec *time, size_t name)
{
    char text[TIME_BYTES];
    size_t head = time_text(time, text);
    uint64_t same = 0;
    for (size_t i = 0; i < times->count; i++)
        if (is_same(&times->links[i]->time, time))
            same |= bit(times->links[i]->value);
    for (unsigned i = 0; i < VALUES; i++)
        if ((same & bit(i)) && times->bytes[i] + 1 + name <= VALUE_BYTES)
            return i;
    for (unsigned i = 0; i < VALUES; i++)
        if (times->bytes[i] > 0 && times->bytes[i] + 2 + head + 1 + name <= VALUE_BYTES)
            return i;
    bool may_grow = times->others + (unsigned)__builtin_popcountll(times->there) < ATTRIBUTES;
    for (unsigned i = 0; i < VALUES; i++)
        if (times->bytes[i] == 0 && (may_grow || (times->there & bit(i))))
            return i;
    return VALUES;
}

void link_add(struct link_times *times, const char *name, const struct timespec *time)
{
    size_t length = strlen(name);
    unsigned value = value_for(times, time, length);
    if (value == VALUES || !is_utf8(name, length) || !put(times, name, length, time, value))
        return;
    times->there |= bit(value);
    times->stale |= bit(value);
    count_bytes(times, value);
}

void link_drop(struct link_times *times, const char *name)
{
    size_t at = place_of(times, name);
    unsigned value = times->links[at]->value;
    free(times->links[at]);
    times->count--;
    memmove(&times->links[at], &times->links[at + 1], (times->count - at) * sizeof *times->links);
    times->stale |= bit(value);
    count_bytes(times, value);
}
