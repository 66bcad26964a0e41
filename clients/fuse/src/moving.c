/* The operations that remove names or move them: unlink, rmdir, rename. */
#include "bridge.h"

#include <errno.h>
#include <stdio.h>
#include <string.h>

#ifndef RENAME_NOREPLACE
#define RENAME_NOREPLACE 1
#define RENAME_EXCHANGE 2
#endif

static bool is_link(const struct node *node)
{
    return node && node->attr.kind == KIND_LINK;
}

/* One name of the node is gone, at the server too; its attributes were kept, where it was the last
   name of what is open. */
static void lose(struct bridge *bridge, struct node *parent, const char *name, struct kept *kept)
{
    struct node *node = node_at(bridge, parent, name);
    bool stays = node && node->names->of_node != NULL;
    if (!node || stays)
        kept_free(kept);
    else
        node->kept = kept;
    if (!node)
        return;
    if (node->attr.links > 0)
        node->attr.links--;
    times_status(bridge, node);
    node_unname(bridge, parent, name);
    if (stays)
        keep_meta(bridge, node);
}

/* What isn't there is told by the call itself. The paths of the call are kept beside. */
static int keep_before(struct bridge *bridge, const struct node *parent, const char *name,
                       struct kept **kept)
{
    char path[PATH_BYTES];
    struct node *node = node_at(bridge, parent, name);
    int fault = keep_attributes(bridge, node, kept);
    if (!fault && bridge->untold.is_on) {
        memcpy(path, bridge->path, sizeof path);
        fault = untold_hold(bridge, node);
        memcpy(bridge->path, path, sizeof path);
    }
    return fault == ENOENT || fault == ENOTDIR ? 0 : fault;
}

static void remove_name(fuse_req_t request, fuse_ino_t number, const char *name, enum op op)
{
    struct bridge *bridge = bridge_of(request);
    struct node *parent = node_of(bridge, number);
    struct kept *kept = NULL;
    size_t removal = 0;
    int fault = parent ? path_in(parent, name, bridge->path) : ESTALE;
    if (!fault)
        fault = keep_before(bridge, parent, name, &kept);
    if (!fault)
        fault = ask_any(bridge);
    if (!fault) {
        removal = ask_path(&bridge->batch, op, bridge->path);
        fault = ask_end(bridge);
    }
    if (!fault)
        fault = refused(bridge, removal);
    if (fault) {
        kept_free(kept);
    } else {
        if (is_link(node_at(bridge, parent, name)))
            link_time_note(bridge, parent, name, NULL);
        lose(bridge, parent, name, kept);
        times_changed(bridge, parent);
        keep_meta(bridge, parent);
    }
    fuse_reply_err(request, fault);
}

static void do_unlink(fuse_req_t request, fuse_ino_t parent, const char *name)
{
    remove_name(request, parent, name, OP_UNLINK);
}

static void do_rmdir(fuse_req_t request, fuse_ino_t parent, const char *name)
{
    remove_name(request, parent, name, OP_RMDIR);
}

/* A move from one name to another. */
struct move {
    struct node *from, *to;
    const char *old, *new;
};

static int paths(struct bridge *bridge, const struct move *move)
{
    int fault = path_in(move->from, move->old, bridge->path);
    return fault ? fault : path_in(move->to, move->new, bridge->other);
}

/* A rename between two names of one file does nothing, also where they are two nodes here. */
static int rename_on_server(struct bridge *bridge, const char *from, const char *to,
                            bool *still_there)
{
    int fault = ask_any(bridge);
    if (fault)
        return fault;
    size_t renamed = ask_two(&bridge->batch, OP_RENAME, from, to);
    size_t stat = ask_path(&bridge->batch, OP_STAT, from);
    fault = ask_end(bridge);
    if (!fault)
        fault = refused(bridge, renamed);
    if (!fault && still_there)
        *still_there = !refused(bridge, stat);
    return fault;
}

static int is_there(struct bridge *bridge, const char *path)
{
    int fault = ask_any(bridge);
    if (fault)
        return fault;
    size_t stat = ask_path(&bridge->batch, OP_STAT, path);
    fault = ask_end(bridge);
    return fault ? fault : refused(bridge, stat) ? 0 : EEXIST;
}

/* A link that is moved, and the time that is kept with it. */
struct moved_link {
    bool is_link, has_time;
    struct timespec time;
};

static struct moved_link moved_of(struct bridge *bridge, const struct node *node)
{
    struct moved_link moved = {.is_link = is_link(node)};
    moved.has_time = moved.is_link && link_time_of(bridge, node, &moved.time);
    return moved;
}

/* One of the two is at this name now, where the other one was. */
static void note_moved(struct bridge *bridge, struct node *parent, const char *name,
                       const struct moved_link *now, const struct moved_link *before)
{
    if (now->is_link || before->is_link)
        link_time_note(bridge, parent, name, now->has_time ? &now->time : NULL);
}

static void note_times(struct bridge *bridge, const struct move *move, struct node *node)
{
    if (node)
        times_status(bridge, node);
    times_changed(bridge, move->from);
    times_changed(bridge, move->to);
    if (node)
        node_touched(bridge, node);
    if (node)
        keep_meta(bridge, node);
    keep_meta(bridge, move->from);
    if (move->to != move->from)
        keep_meta(bridge, move->to);
}

static int move_name(struct bridge *bridge, const struct move *move)
{
    bool still_there = false;
    struct kept *kept;
    struct node *node = node_at(bridge, move->from, move->old);
    const struct moved_link moved = moved_of(bridge, node), none = {.is_link = false};
    const struct moved_link over = moved_of(bridge, node_at(bridge, move->to, move->new));
    int fault = keep_before(bridge, move->to, move->new, &kept);
    if (!fault)
        fault = rename_on_server(bridge, bridge->path, bridge->other, &still_there);
    bool is_same = node && node == node_at(bridge, move->to, move->new);
    if (fault || is_same || still_there)
        kept_free(kept);
    if (fault || is_same)
        return fault;
    if (still_there)
        node_unname(bridge, move->to, move->new);
    else
        lose(bridge, move->to, move->new, kept);
    if (node && !node_name(bridge, move->to, move->new, node))
        fault = ENOMEM;
    if (!still_there) {
        node_unname(bridge, move->from, move->old);
        note_moved(bridge, move->from, move->old, &none, &moved);
    }
    note_moved(bridge, move->to, move->new, &moved, &over);
    note_times(bridge, move, fault ? NULL : node);
    return fault;
}

/* In three steps by a name between; a step that is refused is undone. */
static int exchange_on_server(struct bridge *bridge, const char *between)
{
    int fault = rename_on_server(bridge, bridge->path, between, NULL);
    if (fault)
        return fault;
    fault = rename_on_server(bridge, bridge->other, bridge->path, NULL);
    if (fault) {
        rename_on_server(bridge, between, bridge->path, NULL);
        return fault;
    }
    fault = rename_on_server(bridge, between, bridge->other, NULL);
    if (fault) {
        rename_on_server(bridge, bridge->path, bridge->other, NULL);
        rename_on_server(bridge, between, bridge->path, NULL);
    }
    return fault;
}

static int exchange_names(struct bridge *bridge, const struct move *move)
{
    char between[PATH_BYTES], name[64];
    struct node *one = node_at(bridge, move->from, move->old);
    struct node *other = node_at(bridge, move->to, move->new);
    const struct moved_link first = moved_of(bridge, one), second = moved_of(bridge, other);
    snprintf(name, sizeof name, ".overlayd-fuse-%llx",
             (unsigned long long)(bridge->nodes.last_number));
    int fault = path_in(move->from, name, between);
    if (!fault && (!one || !other))
        fault = ENOENT;
    if (!fault)
        fault = is_there(bridge, between);
    if (!fault)
        fault = exchange_on_server(bridge, between);
    if (fault)
        return fault;
    if (!node_name(bridge, move->from, name, one))
        return ENOMEM;
    node_unname(bridge, move->from, move->old);
    fault = node_name(bridge, move->from, move->old, other) ? 0 : ENOMEM;
    node_unname(bridge, move->to, move->new);
    if (!node_name(bridge, move->to, move->new, one))
        fault = ENOMEM;
    node_unname(bridge, move->from, name);
    if (fault)
        return fault;
    note_moved(bridge, move->from, move->old, &second, &first);
    note_moved(bridge, move->to, move->new, &first, &second);
    note_times(bridge, move, one);
    note_times(bridge, move, other);
    return 0;
}

static void do_rename(fuse_req_t request, fuse_ino_t from, const char *old, fuse_ino_t to,
                      const char *new, unsigned flags)
{
    struct bridge *bridge = bridge_of(request);
    struct move move = {node_of(bridge, from), node_of(bridge, to), old, new};
    int fault = !move.from || !move.to ? ESTALE : paths(bridge, &move);
    if (!fault && flags & ~(unsigned)(RENAME_NOREPLACE | RENAME_EXCHANGE))
        fault = EINVAL;
    if (!fault && flags & RENAME_NOREPLACE)
        fault = is_there(bridge, bridge->other);
    if (!fault)
        fault = flags & RENAME_EXCHANGE ? exchange_names(bridge, &move)
            : move_name(bridge, &move);
    fuse_reply_err(request, fault);
}

void moving_operations(struct fuse_lowlevel_ops *operations)
{
    operations->unlink = do_unlink;
    operations->rmdir = do_rmdir;
    operations->rename = do_rename;
}
