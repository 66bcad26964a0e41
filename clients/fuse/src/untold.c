/* Opens that the kernel doesn't tell, where it can do without: then neither they nor closes are
   requests, and what is read or written is known by its node. The engine opens a file when that is
   needed, and what was used longest ago is closed where there are many.

   What loses its last name may be open still. So it is opened before, for writing too where that
   copies nothing up, and stays so until the kernel forgets it. Who writes to a file of a lower
   layer that has no name any more gets a copy of it, under a name that goes at once. */
#include "bridge.h"

#include <errno.h>
#include <stdio.h>
#include <stdlib.h>

enum { MOST = 1024 };

void untold_leave(struct bridge *bridge, struct opened *opened)
{
    struct untold *untold = &bridge->untold;
    if (!opened->is_listed)
        return;
    *(opened->newer ? &opened->newer->older : &untold->newest) = opened->older;
    *(opened->older ? &opened->older->newer : &untold->oldest) = opened->newer;
    opened->newer = opened->older = NULL;
    opened->is_listed = false;
    untold->count--;
}

static void enter(struct bridge *bridge, struct opened *opened)
{
    struct untold *untold = &bridge->untold;
    opened->older = untold->newest;
    if (untold->newest)
        untold->newest->newer = opened;
    else
        untold->oldest = opened;
    untold->newest = opened;
    opened->is_listed = true;
    untold->count++;
}

static void use(struct bridge *bridge, struct opened *opened)
{
    if (bridge->untold.newest == opened)
        return;
    untold_leave(bridge, opened);
    enter(bridge, opened);
}

/* What has no name can't be opened anew, so it is only taken out of the list. */
void untold_room(struct bridge *bridge)
{
    struct untold *untold = &bridge->untold;
    while (untold->count >= MOST) {
        struct opened *opened = untold->oldest;
        if (opened->node->names)
            opened_release(bridge, opened->node, opened);
        else
            untold_leave(bridge, opened);
    }
}

static struct opened *found(const struct node *node, bool writes)
{
    struct opened *opened = node->opened;
    while (opened && !(is_alive(opened) && (!writes || opened->access == OPEN_BOTH)))
        opened = opened->next;
    return opened;
}

/* Those by which it is only read, or that are of no use, are none any more beside this one. */
static void replace_others(struct bridge *bridge, struct node *node, const struct opened *opened)
{
    for (struct opened *at = node->opened, *next; at; at = next) {
        next = at->next;
        if (at != opened)
            opened_release(bridge, node, at);
    }
}

static int open_by_path(struct bridge *bridge, struct node *node, unsigned flags,
                        struct opened **opened)
{
    uint32_t descriptor;
    untold_room(bridge);
    int fault = path_of(node, bridge->path);
    if (!fault)
        fault = ask_for_open(bridge);
    if (fault)
        return fault;
    size_t open = ask_opening(bridge, flags, 0, bridge->path, &descriptor);
    fault = ask_end(bridge);
    if (!fault)
        fault = refused(bridge, open);
    if (fault)
        return fault;
    *opened = opened_new(bridge, node, flags, descriptor);
    return *opened ? 0 : ENOMEM;
}

static int copy_bytes(struct bridge *bridge, const struct opened *from, const struct opened *to)
{
    char *piece = malloc(PIECE_MAX);
    size_t count = 1, put = 0;
    int fault = piece ? ask_opened(bridge, from) : ENOMEM;
    if (!fault) {
        size_t seek = ask_seek(&bridge->batch, from->descriptor, 0);
        fault = ask_end(bridge);
        fault = fault ? fault : refused(bridge, seek);
    }
    while (!fault && count > 0) {
        fault = bridge->transport->read(bridge, from->connection, from->descriptor, piece,
                                        PIECE_MAX, &count);
        for (size_t at = 0; !fault && at < count; at += put) {
            fault = bridge->transport->write(bridge, to->connection, to->descriptor, piece + at,
                                             count - at, &put);
            fault = !fault && put == 0 ? EIO : fault;
        }
    }
    free(piece);
    return fault;
}

/* A file of the upper in the place of one below that has no name any more. */
static int copy_out(struct bridge *bridge, struct node *node, struct opened **opened)
{
    struct opened *old = found(node, false);
    char name[64];
    uint32_t descriptor;
    untold_room(bridge);
    int fault = old ? ask_for_open(bridge) : EIO;
    if (fault)
        return fault;
    snprintf(name, sizeof name, "/.overlayd-fuse-%llx", (unsigned long long)node->number);
    size_t open = ask_opening(bridge, OPEN_BOTH | OPEN_CREATE | OPEN_NEW, 0600, name, &descriptor);
    size_t gone = ask_path(&bridge->batch, OP_UNLINK, name);
    fault = ask_end(bridge);
    fault = fault ? fault : refused(bridge, open);
    if (fault)
        return fault;
    fault = refused(bridge, gone);
    *opened = opened_new(bridge, node, OPEN_BOTH, descriptor);
    if (!*opened)
        return ENOMEM;
    (*opened)->place = PLACE_UNKNOWN;
    fault = fault ? fault : copy_bytes(bridge, old, *opened);
    old->place = PLACE_UNKNOWN;
    if (fault)
        opened_release(bridge, node, *opened);
    return fault;
}

void untold_new(struct bridge *bridge, struct node *node, struct opened *opened)
{
    opened->node = node;
    enter(bridge, opened);
}

int untold_open(struct bridge *bridge, struct node *node, bool writes, struct opened **opened)
{
    *opened = found(node, writes);
    if (*opened) {
        use(bridge, *opened);
        return 0;
    }
    bool is_nameless = !node->names;
    if (is_nameless && !writes)
        return EIO;
    int fault = is_nameless ? copy_out(bridge, node, opened)
        : open_by_path(bridge, node, writes ? OPEN_BOTH : OPEN_READ, opened);
    if (fault)
        return fault;
    untold_new(bridge, node, *opened);
    if (!writes)
        return 0;
    replace_others(bridge, node, *opened);
    node_written(bridge, node);
    return 0;
}

int untold_hold(struct bridge *bridge, struct node *node)
{
    struct opened *opened;
    bool is_needed = bridge->untold.is_on && node && node->attr.kind == KIND_FILE
        && !node->special && node->names && !node->names->of_node;
    bool is_upper = is_needed
        && (node->touched || (node->has_place && node->place.layer == 0));
    return is_needed ? untold_open(bridge, node, is_upper, &opened) : 0;
}

/* Without an upper an open for writing is EROFS, which is told by the open alone. */
void untold_begin(struct bridge *bridge)
{
    if (!bridge->transport->read || bridge->options.size || ask_any(bridge) != 0)
        return;
    size_t stat = ask_path(&bridge->batch, OP_STAT, "/");
    if (ask_end(bridge) != 0 || refused(bridge, stat))
        return;
    uint32_t mode = answer_attr(&bridge->batch, stat).mode;
    if (ask_any(bridge) != 0)
        return;
    size_t change = ask_mode(&bridge->batch, OP_CHMOD, mode, "/");
    bridge->untold.is_on = ask_end(bridge) == 0 && !refused(bridge, change);
}
