/* The operations that make something: mkdir, mknod, symlink, link, create. */
#include "bridge.h"

#include <errno.h>
#include <fcntl.h>

/* Something that is being made, at bridge->path. */
struct making {
    struct node *parent;
    const char *name;
    mode_t mode;
    uint32_t uid, gid;
    bool was_there;  /* another client was faster */
};

static bool has_owner(const struct making *making)
{
    return making->uid != 0 || making->gid != 0;
}

/* The engine makes all for owner and group 0. What gets another one is root's alone until then. */
static uint32_t first_mode(const struct making *making)
{
    return has_owner(making) ? making->mode & S_IRWXU : making->mode;
}

/* A set-group-ID directory gives its group on. */
static int begin(fuse_req_t request, fuse_ino_t parent, const char *name, mode_t mode,
                 struct making *making)
{
    struct bridge *bridge = bridge_of(request);
    const struct fuse_ctx *caller = fuse_req_ctx(request);
    making->parent = node_of(bridge, parent);
    if (!making->parent)
        return ESTALE;
    bool gives_group = (making->parent->attr.mode & S_ISGID) != 0;
    making->was_there = false;
    making->name = name;
    making->mode = mode & 07777;
    if (gives_group && S_ISDIR(mode))
        making->mode |= S_ISGID;
    if (!inner_id(&bridge->options.uids, caller->uid, &making->uid)
        || !inner_id(&bridge->options.gids, caller->gid, &making->gid))
        return EOVERFLOW;
    if (gives_group)
        making->gid = making->parent->attr.gid;
    int fault = space_for(bridge, 0);
    return fault ? fault : path_in(making->parent, name, bridge->path);
}

/* Gives what was made its owner, and only then its mode; what can't be given is removed again. */
static int give(struct bridge *bridge, const struct making *making, bool is_directory,
                size_t *stat)
{
    struct connection *connection = bridge->asked;
    int fault = ask_on(bridge, connection);
    if (fault)
        return fault;
    size_t chown = ask_chown(&bridge->batch, making->uid, making->gid, bridge->path);
    size_t chmod = ask_mode(&bridge->batch, OP_CHMOD, making->mode, bridge->path);
    *stat = ask_path(&bridge->batch, OP_STAT, bridge->path);
    fault = ask_end(bridge);
    if (!fault)
        fault = refused(bridge, chown);
    if (!fault)
        fault = refused(bridge, chmod);
    if (fault && ask_on(bridge, connection) == 0) {
        ask_path(&bridge->batch, is_directory ? OP_RMDIR : OP_UNLINK, bridge->path);
        ask_end(bridge);
    }
    return fault;
}

/* Has what the batch makes made, gives it its owner, and looks at it. Its stat goes with it where
   no owner has to be given, which must not happen to what was there before. */
static int look_at(struct bridge *bridge, const struct making *making, bool owned,
                   struct attr *attr, size_t made)
{
    bool later = owned && has_owner(making);
    bool is_directory = bridge->batch.asks[made].op == OP_MKDIR;
    size_t stat = later ? 0 : ask_path(&bridge->batch, OP_STAT, bridge->path);
    int fault = ask_end(bridge);
    if (!fault)
        fault = refused(bridge, made);
    if (!fault && later)
        fault = give(bridge, making, is_directory, &stat);
    if (!fault)
        fault = refused(bridge, stat);
    if (!fault)
        *attr = answer_attr(&bridge->batch, stat);
    return fault;
}

/* The node for what was made; a node that was known there stands for something else. */
static struct node *made_node(struct bridge *bridge, const struct making *making,
                              const struct attr *attr)
{
    if (!making->was_there)
        node_unname(bridge, making->parent, making->name);
    struct node *node = node_found(bridge, making->parent, making->name, attr);
    if (!node)
        return NULL;
    if (making->was_there) {
        node_see(bridge, node, attr);
        return node;
    }
    if (attr->kind == KIND_LINK && has_owner(making)) {
        node->has_owner = true;
        node->attr.uid = making->uid;
        node->attr.gid = making->gid;
    }
    place_made(bridge, node);
    node_see(bridge, node, attr);
    node->touched = true;
    node->written = true;
    node->bare = bridge->options.shared ? 0 : bridge->epoch;
    times_new(node);
    times_changed(bridge, making->parent);
    return node;
}

static void reply_made(fuse_req_t request, struct bridge *bridge, const struct making *making,
                       const struct attr *attr, int fault)
{
    struct node *node = fault ? NULL : made_node(bridge, making, attr);
    if (!node) {
        fuse_reply_err(request, fault ? fault : ENOMEM);
        return;
    }
    if (node->attr.kind == KIND_LINK)
        link_time_note(bridge, making->parent, making->name, &node->times.change);
    keep_meta(bridge, node);
    keep_meta(bridge, making->parent);
    reply_entry(request, bridge, node);
}

static void do_mkdir(fuse_req_t request, fuse_ino_t parent, const char *name, mode_t mode)
{
    struct bridge *bridge = bridge_of(request);
    struct making making;
    struct attr attr;
    int fault = begin(request, parent, name, mode | S_IFDIR, &making);
    if (!fault)
        fault = ask_any(bridge);
    if (!fault) {
        size_t made = ask_mode(&bridge->batch, OP_MKDIR, first_mode(&making), bridge->path);
        fault = look_at(bridge, &making, true, &attr, made);
    }
    reply_made(request, bridge, &making, &attr, fault);
}

static void do_symlink(fuse_req_t request, const char *target, fuse_ino_t parent,
                       const char *name)
{
    struct bridge *bridge = bridge_of(request);
    struct making making;
    struct attr attr;
    int fault = begin(request, parent, name, 0777, &making);
    if (!fault)
        fault = ask_any(bridge);
    if (!fault) {
        size_t made = ask_two(&bridge->batch, OP_SYMLINK, target, bridge->path);
        fault = look_at(bridge, &making, false, &attr, made);
    }
    reply_made(request, bridge, &making, &attr, fault);
}

/* A fifo, socket or device is an empty file to the server. */
static void do_mknod(fuse_req_t request, fuse_ino_t parent, const char *name, mode_t mode,
                     dev_t device)
{
    struct bridge *bridge = bridge_of(request);
    struct making making;
    struct attr attr;
    uint32_t descriptor;
    int fault = begin(request, parent, name, mode, &making);
    if (!fault)
        fault = ask_for_moment(bridge);
    if (!fault) {
        size_t made = ask_opening(bridge, OPEN_WRITE | OPEN_CREATE | OPEN_NEW,
                                  first_mode(&making), bridge->path, &descriptor);
        ask_closing(bridge, descriptor);
        fault = look_at(bridge, &making, true, &attr, made);
    }
    struct node *node = fault ? NULL : made_node(bridge, &making, &attr);
    if (!node) {
        fuse_reply_err(request, fault ? fault : ENOMEM);
        return;
    }
    if (!S_ISREG(mode) && (mode & S_IFMT) != 0) {
        node->special = mode & S_IFMT;
        node->device = S_ISCHR(mode) || S_ISBLK(mode) ? device : 0;
    }
    keep_meta(bridge, node);
    keep_meta(bridge, making.parent);
    reply_entry(request, bridge, node);
}

/* The same node has a further name then. */
static int link_on_server(struct bridge *bridge, struct node *node, struct node *parent,
                          const char *name)
{
    int fault = path_of(node, bridge->other);
    if (!fault)
        fault = path_in(parent, name, bridge->path);
    if (!fault)
        fault = space_for_bytes(bridge, node, node->attr.size);
    if (!fault)
        fault = ask_any(bridge);
    if (fault)
        return fault;
    size_t link = ask_two(&bridge->batch, OP_LINK, bridge->other, bridge->path);
    size_t stat = ask_path(&bridge->batch, OP_STAT, bridge->path);
    fault = ask_end(bridge);
    if (!fault)
        fault = refused(bridge, link);
    if (!fault)
        fault = refused(bridge, stat);
    if (fault)
        return fault;
    struct attr attr = answer_attr(&bridge->batch, stat);
    node_unname(bridge, parent, name);
    if (!node_name(bridge, parent, name, node))
        return ENOMEM;
    node_see(bridge, node, &attr);
    times_status(bridge, node);
    times_changed(bridge, parent);
    node_touched(bridge, node);
    return 0;
}

static void do_link(fuse_req_t request, fuse_ino_t number, fuse_ino_t new_parent,
                    const char *name)
{
    struct bridge *bridge = bridge_of(request);
    struct node *node = node_of(bridge, number), *parent = node_of(bridge, new_parent);
    struct timespec time;
    bool has_time = node && link_time_of(bridge, node, &time);
    int fault = node && parent ? link_on_server(bridge, node, parent, name) : ESTALE;
    if (fault) {
        fuse_reply_err(request, fault);
        return;
    }
    if (node->attr.kind == KIND_LINK)
        link_time_note(bridge, parent, name, has_time ? &time : NULL);
    keep_meta(bridge, node);
    keep_meta(bridge, parent);
    reply_entry(request, bridge, node);
}

/* A file that is made and opened, before its node is known. */
struct file {
    unsigned flags;
    struct connection *connection;
    unsigned generation;
    uint32_t descriptor;
    struct attr attr;
};

/* What was opened though the rest was refused is closed again. */
static int open_made(struct bridge *bridge, const struct making *making, struct file *file)
{
    bool is_new = (file->flags & OPEN_NEW) != 0;
    untold_room(bridge);
    int fault = ask_for_open(bridge);
    if (fault)
        return fault;
    struct connection *connection = bridge->asked;
    file->connection = connection;
    file->generation = connection->generation;
    size_t made = ask_opening(bridge, file->flags, is_new ? first_mode(making) : making->mode,
                              bridge->path, &file->descriptor);
    fault = look_at(bridge, making, is_new, &file->attr, made);
    if (fault && connection->generation == file->generation)
        connection->closing |= connection->used & UINT64_C(1) << file->descriptor;
    return fault;
}

/* Opens a file that is made by it; where another client was faster, and it may, that one. */
static int create_on_server(struct bridge *bridge, struct making *making, int how,
                            struct file *file)
{
    file->flags = open_flags(bridge, how & ~O_TRUNC) | OPEN_CREATE | OPEN_NEW;
    int fault = open_made(bridge, making, file);
    if (fault != EEXIST || (how & O_EXCL))
        return fault;
    making->was_there = true;
    file->flags = open_flags(bridge, how);
    return open_made(bridge, making, file);
}

/* A handle on what was opened, but where opens aren't told; or else nothing of it stays open. */
static struct node *created(struct bridge *bridge, const struct making *making,
                            const struct file *file, struct handle **handle)
{
    struct node *node = made_node(bridge, making, &file->attr);
    bool has_handle = !bridge->untold.is_on;
    *handle = node && has_handle ? handle_new(bridge, node) : NULL;
    bridge->asked = file->connection;
    struct opened *opened = node && (*handle || !has_handle)
        ? opened_new(bridge, node, file->flags, file->descriptor) : NULL;
    if (opened) {
        opened->handles = has_handle;
        opened->generation = file->generation;
        if (*handle)
            (*handle)->opened = opened;
        else
            untold_new(bridge, node, opened);
        return node;
    }
    if (!*handle)
        file->connection->closing |= file->connection->used & UINT64_C(1) << file->descriptor;
    else
        handle_free(bridge, *handle);
    return NULL;
}

static void reply_created(fuse_req_t request, struct bridge *bridge, struct node *node,
                          struct handle *handle, struct fuse_file_info *info)
{
    struct fuse_entry_param entry;
    entry_of(bridge, node, &entry);
    info->fh = handle ? handle->number : 0;
    info->direct_io = bridge->options.shared;
    info->keep_cache = !bridge->options.shared;
    node->lookups++;
    if (fuse_reply_create(request, &entry, info) == 0)
        return;
    node->lookups--;
    if (handle)
        handle_free(bridge, handle);
    else
        node_settle(bridge, node);
}

static void do_create(fuse_req_t request, fuse_ino_t parent, const char *name, mode_t mode,
                      struct fuse_file_info *info)
{
    struct bridge *bridge = bridge_of(request);
    struct making making;
    struct file file;
    int fault = begin(request, parent, name, mode, &making);
    if (!fault)
        fault = create_on_server(bridge, &making, info->flags, &file);
    struct handle *handle = NULL;
    struct node *node = fault ? NULL : created(bridge, &making, &file, &handle);
    if (!node) {
        fuse_reply_err(request, fault ? fault : ENOMEM);
        return;
    }
    if (making.was_there && (file.flags & OPEN_EMPTY) && takes_bits(bridge))
        take_bits(bridge, node);
    keep_meta(bridge, node);
    keep_meta(bridge, making.parent);
    reply_created(request, bridge, node, handle, info);
}

void making_operations(struct fuse_lowlevel_ops *operations)
{
    operations->mkdir = do_mkdir;
    operations->mknod = do_mknod;
    operations->symlink = do_symlink;
    operations->link = do_link;
    operations->create = do_create;
}
