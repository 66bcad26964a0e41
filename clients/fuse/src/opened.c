/* Files that the engine has open. The handles on a node share them, one for each way of access;
   with --shared each handle has its own, since others hear each open and close.

   One keeps to the connection on which it was opened. Where that has ended, it is of no use any
   more, and what is done through it is EIO. */
#include "bridge.h"

#include <errno.h>
#include <fcntl.h>
#include <stdlib.h>

bool is_alive(const struct opened *opened)
{
    return opened && !opened->lost && opened->generation == opened->connection->generation;
}

int ask_opened(struct bridge *bridge, const struct opened *opened)
{
    if (!is_alive(opened))
        return EIO;
    int fault = ask_on(bridge, opened->connection);
    return fault ? fault : is_alive(opened) ? 0 : EIO;
}

/* Who reads may read by one that is for both. */
struct opened *opened_for(const struct bridge *bridge, const struct node *node, unsigned flags)
{
    if (bridge->options.shared)
        return NULL;
    for (struct opened *opened = node->opened; opened; opened = opened->next)
        if (is_alive(opened) && (opened->access == (flags & 3) || opened->access == OPEN_BOTH))
            return opened;
    return NULL;
}

struct opened *opened_new(struct bridge *bridge, struct node *node, unsigned flags,
                          uint32_t descriptor)
{
    struct opened *opened = calloc(1, sizeof *opened);
    if (!opened) {
        bridge->asked->closing |= bridge->asked->used & UINT64_C(1) << descriptor;
        return NULL;
    }
    opened->access = flags & 3;
    opened->appends = (flags & OPEN_APPEND) != 0;
    opened->connection = bridge->asked;
    opened->generation = bridge->asked->generation;
    opened->descriptor = descriptor;
    opened->next = node->opened;
    node->opened = opened;
    return opened;
}

/* The close goes with the next request, but where somebody else may wait for it. */
static void close_later(struct bridge *bridge, const struct opened *opened)
{
    struct connection *connection = opened->connection;
    if (!is_alive(opened))
        return;
    connection->closing |= UINT64_C(1) << opened->descriptor;
    bool is_now = bridge->options.shared || bridge->transport->is_near;
    if (is_now && ask_on(bridge, connection) == 0)
        ask_end(bridge);
}

/* A handle less has it; with the last one it goes. */
void opened_release(struct bridge *bridge, struct node *node, struct opened *opened)
{
    struct opened **at = &node->opened;
    if (!opened || (opened->handles > 0 && --opened->handles > 0))
        return;
    while (*at != opened)
        at = &(*at)->next;
    *at = opened->next;
    untold_leave(bridge, opened);
    close_later(bridge, opened);
    free(opened);
}

void opened_end(struct bridge *bridge, struct node *node)
{
    while (node->opened)
        opened_release(bridge, node, node->opened);
}

struct opened *live_opened(const struct node *node, bool writes)
{
    for (struct opened *opened = node->opened; opened; opened = opened->next)
        if (is_alive(opened) && (!writes || opened->access != OPEN_READ))
            return opened;
    return NULL;
}

/* On its own connection, where a descriptor is kept back for it. What can't be opened anew would
   show bytes that are gone, so it is lost. */
static void reopen(struct bridge *bridge, struct node *node, struct opened *opened)
{
    uint32_t descriptor = 0, old = opened->descriptor;
    struct connection *connection = opened->connection;
    size_t open = 0;
    int fault = path_of(node, bridge->path);
    if (!fault)
        fault = ask_opened(bridge, opened);
    if (!fault) {
        open = ask_opening(bridge, OPEN_READ, 0, bridge->path, &descriptor);
        ask_closing(bridge, old);
        fault = ask_end(bridge);
    }
    if (fault && is_alive(opened))
        connection->closing |= UINT64_C(1) << old;
    opened->lost = fault || refused(bridge, open);
    if (opened->lost)
        return;
    connection->users[descriptor] = connection->users[old];
    opened->descriptor = descriptor;
    opened->place = 0;
}

static void reopen_readers(struct bridge *bridge, struct node *node)
{
    for (struct opened *opened = node->opened; opened; opened = opened->next)
        if (opened->access == OPEN_READ && is_alive(opened))
            reopen(bridge, node, opened);
}

/* A descriptor for reading alone on a file of a lower layer keeps what the file was, which is not
   what a program of Linux expects once the file is copied up. */
void node_touched(struct bridge *bridge, struct node *node)
{
    if (node->touched || node->attr.kind != KIND_FILE)
        return;
    node->touched = true;
    place_touched(bridge, node);
    reopen_readers(bridge, node);
}

/* With metacopy a file is copied up without its bytes first, and such a descriptor keeps these. */
void node_written(struct bridge *bridge, struct node *node)
{
    if (node->written || node->attr.kind != KIND_FILE)
        return;
    node->touched = true;
    node->written = true;
    place_touched(bridge, node);
    reopen_readers(bridge, node);
}

/* The kernel's cache reads what it writes in part, and appends by itself. */
unsigned open_flags(const struct bridge *bridge, int flags)
{
    bool shared = bridge->options.shared;
    int access = flags & O_ACCMODE;
    unsigned ours = access == O_RDONLY && !(flags & O_TRUNC) ? OPEN_READ
        : access == O_WRONLY && shared ? OPEN_WRITE : OPEN_BOTH;
    if (flags & O_TRUNC)
        ours |= OPEN_EMPTY;
    if (shared && (flags & O_APPEND) && access != O_RDONLY)
        ours |= OPEN_APPEND;
    return ours;
}
