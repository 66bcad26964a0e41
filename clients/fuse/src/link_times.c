/* Times of symbolic links. The engine's links have no attributes, so attributes of the directory
   that they are in have the times of their last changes, many in one: user.overlayd.links.N.

   What a directory has is read once, and kept with its node. What changes it marks values that the
   engine has otherwise, and those are written with the directory's own times. A link for which
   there is no room has no time that is kept. */
#include "link_values.h"

#include <errno.h>
#include <stdio.h>
#include <stdlib.h>
#include <string.h>

#define LINKS OWN "links."

enum { KEY_BYTES = sizeof LINKS + 10 };

static void key_of(unsigned value, char *key)
{
    snprintf(key, KEY_BYTES, LINKS "%u", value);
}

/* The number of such an attribute; VALUES for any other. */
static unsigned value_of(const char *key, size_t length)
{
    char own[KEY_BYTES];
    size_t prefix = strlen(LINKS);
    if (length <= prefix || memcmp(key, LINKS, prefix) != 0)
        return VALUES;
    for (unsigned value = 0; value < VALUES; value++) {
        key_of(value, own);
        if (length == strlen(own) && memcmp(key, own, length) == 0)
            return value;
    }
    return VALUES;
}

static int read_keys(struct bridge *bridge, const char *path, struct link_times *times)
{
    const char *key;
    size_t length;
    int fault = ask_any(bridge);
    if (fault)
        return fault;
    size_t list = ask_path(&bridge->batch, OP_ATTRS, path);
    fault = ask_end(bridge);
    if (!fault)
        fault = refused(bridge, list);
    if (fault)
        return fault;
    struct names names = answer_names(&bridge->batch, list);
    while ((key = next_name(&names, &length))) {
        unsigned value = value_of(key, length);
        if (value < VALUES)
            times->there |= bit(value);
        else
            times->others += length != strlen(META) || memcmp(key, META, length) != 0;
    }
    return 0;
}

static int read_values(struct bridge *bridge, const char *path, struct link_times *times)
{
    size_t asks[VALUES];
    char key[KEY_BYTES];
    int fault = times->there ? ask_any(bridge) : 0;
    if (fault || !times->there)
        return fault;
    for (unsigned i = 0; i < VALUES; i++) {
        key_of(i, key);
        if (times->there & bit(i))
            asks[i] = ask_two(&bridge->batch, OP_GETATTR, path, key);
    }
    fault = ask_end(bridge);
    for (unsigned i = 0; !fault && i < VALUES; i++) {
        size_t length;
        if (!(times->there & bit(i)) || refused(bridge, asks[i]))
            continue;
        const char *text = answer_text(&bridge->batch, asks[i], &length);
        fault = link_value_read(times, i, text, length) ? 0 : ENOMEM;
    }
    return fault;
}

static struct link_times *read_all(struct bridge *bridge, const struct node *directory)
{
    char path[PATH_BYTES];
    bool has_none = is_bare(bridge, directory);
    unsigned epoch = bridge->epoch;
    struct link_times *times = calloc(1, sizeof *times);
    int fault = times ? path_of(directory, path) : ENOMEM;
    if (!fault && !has_none)
        fault = read_keys(bridge, path, times);
    if (!fault && !has_none)
        fault = read_values(bridge, path, times);
    if (fault) {
        link_times_free(times);
        return NULL;
    }
    times->sure = epoch;
    return times;
}

void link_times_look(struct bridge *bridge, struct node *directory)
{
    const struct link_times *times = directory->link_times;
    bool is_known = times && times->sure == bridge->epoch
        && (!bridge->options.shared || times->stale);
    if (is_known || !bridge->options.times)
        return;
    struct link_times *found = read_all(bridge, directory);
    link_times_free(directory->link_times);
    directory->link_times = found;
}

void link_times_doubt(struct node *directory)
{
    if (directory->link_times)
        directory->link_times->sure = 0;
}

void link_time_note(struct bridge *bridge, struct node *directory, const char *name,
                    const struct timespec *time)
{
    link_times_look(bridge, directory);
    struct link_times *times = directory->link_times;
    const struct link *link = link_at(times, name);
    if (!times || !bridge->options.times || (link && time && is_same(&link->time, time)))
        return;
    if (link)
        link_drop(times, name);
    if (time)
        link_add(times, name, time);
    if (times->stale) {
        times->stale |= times->doubled;
        times->doubled = 0;
    }
}

void ask_link_times(struct bridge *bridge, struct node *directory, const char *path)
{
    struct link_times *times = directory->link_times;
    char key[KEY_BYTES], text[VALUE_BYTES];
    for (unsigned i = 0; times && times->stale && i < VALUES; i++) {
        if (!(times->stale & bit(i)))
            continue;
        size_t length = link_value_text(times, i, text);
        key_of(i, key);
        if (length > 0)
            ask_setattr(&bridge->batch, path, key, text, length);
        else
            ask_two(&bridge->batch, OP_DELATTR, path, key);
        times->there = length > 0 ? times->there | bit(i) : times->there & ~bit(i);
        times->stale &= ~bit(i);
    }
}

/* Links. */

void link_time_see(const struct bridge *bridge, const struct node *directory, const char *name,
                   struct node *node)
{
    bool is_wanted = node->attr.kind == KIND_LINK && wants_meta(bridge, node);
    const struct link *link = is_wanted ? link_at(directory->link_times, name) : NULL;
    if (!link || (node->has_times && is_same(&node->times.change, &link->time)))
        return;
    node->times = (struct times){link->time, link->time, link->time};
    node->has_times = true;
}

void link_time_look(struct bridge *bridge, struct node *directory, const char *name,
                    struct node *node)
{
    if (node->attr.kind != KIND_LINK || !wants_meta(bridge, node))
        return;
    link_times_look(bridge, directory);
    link_time_see(bridge, directory, name, node);
}

/* One that was never changed here and of which its directory says nothing has none. */
bool link_time_of(struct bridge *bridge, const struct node *node, struct timespec *time)
{
    const struct name *name = node->names;
    if (!bridge->options.times || node->attr.kind != KIND_LINK || !name)
        return false;
    *time = node->times.change;
    if (node->has_times && !is_same(time, &bridge->began))
        return true;
    link_times_look(bridge, name->parent);
    const struct link *link = link_at(name->parent->link_times, name->text);
    if (link)
        *time = link->time;
    return link != NULL;
}

void keep_link_time(struct bridge *bridge, const struct node *node)
{
    if (!bridge->options.times || node->attr.kind != KIND_LINK)
        return;
    for (const struct name *name = node->names; name; name = name->of_node) {
        struct node *directory = name->parent;
        link_time_note(bridge, directory, name->text, &node->times.change);
        bool is_stale = directory->link_times && directory->link_times->stale;
        if (!is_stale || path_of(directory, bridge->path) != 0 || ask_any(bridge) != 0)
            continue;
        ask_link_times(bridge, directory, bridge->path);
        ask_end(bridge);
    }
}
