/* Attributes of what has no name any more but is still open. The engine's calls go by paths, so the
   bridge takes the attributes over with the last name, and keeps them as long as it is open. */
#include "bridge.h"

#include <errno.h>
#include <stdlib.h>
#include <string.h>

/* As many and as large as the engine takes them. */
enum { KEPT_MAX = 64, NAME_MAX_BYTES = 255, VALUE_MAX = 1024 };

struct kept_one {
    char *name, *value;
    size_t length;
};

struct kept {
    size_t count;
    struct kept_one ones[KEPT_MAX];
};

void kept_free(struct kept *kept)
{
    for (size_t i = 0; kept && i < kept->count; i++) {
        free(kept->ones[i].name);
        free(kept->ones[i].value);
    }
    free(kept);
}

static size_t place_of(const struct kept *kept, const char *name)
{
    size_t i = 0;
    while (i < kept->count && strcmp(kept->ones[i].name, name) != 0)
        i++;
    return i;
}

int kept_get(const struct kept *kept, const char *name, const char **value, size_t *length)
{
    size_t at = kept ? place_of(kept, name) : 0;
    if (!kept || at == kept->count)
        return ENODATA;
    *value = kept->ones[at].value;
    *length = kept->ones[at].length;
    return 0;
}

static int put(struct kept *kept, const char *name, size_t name_length, const char *value,
               size_t length)
{
    char *own_name = strndup(name, name_length), *own_value = malloc(length + 1);
    size_t at = own_name ? place_of(kept, own_name) : 0;
    bool has_room = at < KEPT_MAX && length <= VALUE_MAX && name_length <= NAME_MAX_BYTES;
    if (!own_name || !own_value || !has_room) {
        free(own_name);
        free(own_value);
        return has_room ? ENOMEM : ENOSPC;
    }
    memcpy(own_value, value, length);
    if (at < kept->count) {
        free(kept->ones[at].name);
        free(kept->ones[at].value);
    } else {
        kept->count++;
    }
    kept->ones[at] = (struct kept_one){own_name, own_value, length};
    return 0;
}

int kept_set(struct node *node, const char *name, const char *value, size_t length)
{
    if (!node->kept)
        node->kept = calloc(1, sizeof *node->kept);
    return node->kept ? put(node->kept, name, strlen(name), value, length) : ENOMEM;
}

int kept_remove(struct node *node, const char *name)
{
    struct kept *kept = node->kept;
    size_t at = kept ? place_of(kept, name) : 0;
    if (!kept || at == kept->count)
        return ENODATA;
    free(kept->ones[at].name);
    free(kept->ones[at].value);
    kept->ones[at] = kept->ones[--kept->count];
    return 0;
}

const char *kept_next(const struct kept *kept, size_t *at)
{
    return kept && *at < kept->count ? kept->ones[(*at)++].name : NULL;
}

/* Taking over: the names, and then each value. */

static int take_names(struct bridge *bridge, struct kept *kept)
{
    const char *name;
    size_t length;
    int fault = ask_any(bridge);
    if (fault)
        return fault;
    size_t list = ask_path(&bridge->batch, OP_ATTRS, bridge->other);
    fault = ask_end(bridge);
    if (!fault)
        fault = refused(bridge, list);
    if (fault)
        return fault == ELOOP ? 0 : fault;
    struct names names = answer_names(&bridge->batch, list);
    while (!fault && (name = next_name(&names, &length)))
        fault = put(kept, name, length, "", 0);
    return fault;
}

static int take_values(struct bridge *bridge, struct kept *kept)
{
    int fault = kept->count ? ask_any(bridge) : 0;
    for (size_t i = 0; !fault && i < kept->count; i++)
        ask_two(&bridge->batch, OP_GETATTR, bridge->other, kept->ones[i].name);
    if (!fault && kept->count)
        fault = ask_end(bridge);
    for (size_t i = 0; !fault && i < kept->count; i++) {
        size_t length, first = bridge->batch.count - kept->count;
        fault = refused(bridge, first + i);
        if (fault)
            break;
        const char *value = answer_text(&bridge->batch, first + i, &length);
        char *own = length <= VALUE_MAX ? malloc(length + 1) : NULL;
        if (!own)
            return ENOMEM;
        memcpy(own, value, length);
        free(kept->ones[i].value);
        kept->ones[i].value = own;
        kept->ones[i].length = length;
    }
    return fault;
}

/* Before the last name goes of what is open. */
int keep_attributes(struct bridge *bridge, const struct node *node, struct kept **kept)
{
    char path[PATH_BYTES];
    *kept = NULL;
    bool is_open = node && (node->handles || bridge->untold.is_on);
    bool is_needed = is_open && node->names && !node->names->of_node
        && node->bare != bridge->epoch;
    if (!is_needed)
        return 0;
    memcpy(path, bridge->other, sizeof path);
    *kept = calloc(1, sizeof **kept);
    int fault = *kept ? path_of(node, bridge->other) : ENOMEM;
    if (!fault)
        fault = take_names(bridge, *kept);
    if (!fault)
        fault = take_values(bridge, *kept);
    memcpy(bridge->other, path, sizeof path);
    if (fault || (*kept)->count == 0) {
        kept_free(*kept);
        *kept = NULL;
    }
    return fault;
}
