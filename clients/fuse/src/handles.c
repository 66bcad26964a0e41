/* Handles: what the kernel has open. */
#include "bridge.h"

#include <stdlib.h>

static bool make_room(struct bridge *bridge)
{
    size_t room = bridge->handle_room ? bridge->handle_room * 2 : 64;
    struct handle **handles = realloc(bridge->handles, room * sizeof *handles);
    if (!handles)
        return false;
    for (size_t i = bridge->handle_room; i < room; i++)
        handles[i] = NULL;
    bridge->handles = handles;
    bridge->handle_room = room;
    return true;
}

struct handle *handle_new(struct bridge *bridge, struct node *node)
{
    size_t number = bridge->handle_free ? bridge->handle_free : 1;  /* 0 is said of what has none */
    while (number < bridge->handle_room && bridge->handles[number])
        number++;
    if (number >= bridge->handle_room && !make_room(bridge))
        return NULL;
    struct handle *handle = calloc(1, sizeof *handle);
    if (!handle)
        return NULL;
    bridge->handles[number] = handle;
    bridge->handle_free = number + 1;
    handle->number = number;
    handle->uid = bridge->kernel.caller;
    handle->node = node;
    handle->next = node->handles;
    node->handles = handle;
    return handle;
}

struct handle *handle_of(struct bridge *bridge, const struct fuse_file_info *info)
{
    return info && info->fh < bridge->handle_room ? bridge->handles[info->fh] : NULL;
}

void handle_free(struct bridge *bridge, struct handle *handle)
{
    struct node *node = handle->node;
    struct handle **at = &node->handles;
    while (*at != handle)
        at = &(*at)->next;
    *at = handle->next;
    bridge->handles[handle->number] = NULL;
    if (handle->number < bridge->handle_free)
        bridge->handle_free = handle->number;
    opened_release(bridge, node, handle->opened);
    ahead_free(bridge, handle);
    listing_release(bridge, handle->listing);
    free(handle);
    node_settle(bridge, node);
}

/* The connections have ended by then, and with them all that was open on them. */
void handles_end(struct bridge *bridge)
{
    for (size_t i = 0; i < bridge->handle_room; i++)
        if (bridge->handles[i])
            handle_free(bridge, bridge->handles[i]);
    free(bridge->handles);
}
