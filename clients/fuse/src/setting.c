/* The operation setattr: modes, owners, sizes and times. */
#include "bridge.h"

#include <errno.h>

enum {
    SET_OWNER = FUSE_SET_ATTR_UID | FUSE_SET_ATTR_GID,
    SET_ACCESS = FUSE_SET_ATTR_ATIME | FUSE_SET_ATTR_ATIME_NOW,
    SET_CHANGE = FUSE_SET_ATTR_MTIME | FUSE_SET_ATTR_MTIME_NOW,
};

/* What is to be set, and the requests for it. */
struct setting {
    struct node *node;
    const struct stat *wanted;
    int what;
    uint32_t mode, uid, gid;
    struct opened *opened;    /* by which the file is cut, or none */
    bool by_path;             /* whether the object has a name */
    size_t first, after;      /* of the requests that must not be refused */
    bool has_stat;            /* whether the next one tells what it has become */
};

enum { SET_CALLS = FUSE_SET_ATTR_MODE | SET_OWNER | FUSE_SET_ATTR_SIZE };

static bool asks(const struct setting *setting, int what)
{
    return (setting->what & what) != 0;
}

/* A link's owner, and what was removed, is kept here alone: the server has no call for it. */
static bool is_of_server(const struct setting *setting)
{
    return setting->by_path && setting->node->attr.kind != KIND_LINK;
}

static void ask_size(struct bridge *bridge, const struct setting *setting)
{
    uint64_t size = (uint64_t)setting->wanted->st_size;
    uint32_t descriptor;
    if (setting->opened) {
        ask_truncate(&bridge->batch, setting->opened->descriptor, size);
        return;
    }
    bool is_emptied = size == 0 && bridge->transport->is_near;  /* then nothing is copied up */
    ask_opening(bridge, is_emptied ? OPEN_WRITE | OPEN_EMPTY : OPEN_WRITE, 0, bridge->path,
                &descriptor);
    if (!is_emptied)
        ask_truncate(&bridge->batch, descriptor, size);
    ask_closing(bridge, descriptor);
}

static int begin(struct bridge *bridge, struct setting *setting)
{
    struct node *node = setting->node;
    if (asks(setting, FUSE_SET_ATTR_SIZE)) {
        if (bridge->untold.is_on && (!setting->by_path || setting->wanted->st_size > 0)) {
            int fault = untold_open(bridge, setting->node, true, &setting->opened);
            return fault ? fault : ask_opened(bridge, setting->opened);
        }
        if (setting->opened && !is_alive(setting->opened))
            return EIO;
        if (!setting->opened || setting->opened->access == OPEN_READ)
            setting->opened = live_opened(node, true);
        if (!setting->opened && !setting->by_path)
            return EBADF;
        return setting->opened ? ask_opened(bridge, setting->opened) : ask_for_moment(bridge);
    }
    return ask_any(bridge);
}

/* Makes the calls; a last one tells the attributes where they aren't known. */
static int set_on_server(struct bridge *bridge, struct setting *setting)
{
    const struct node *node = setting->node;
    int fault = begin(bridge, setting);
    if (fault)
        return fault;
    setting->first = bridge->batch.count;
    if (asks(setting, FUSE_SET_ATTR_MODE) && is_of_server(setting))
        ask_mode(&bridge->batch, OP_CHMOD, setting->mode, bridge->path);
    if (asks(setting, SET_OWNER) && is_of_server(setting))
        ask_chown(&bridge->batch, setting->uid, setting->gid, bridge->path);
    if (asks(setting, FUSE_SET_ATTR_SIZE))
        ask_size(bridge, setting);
    setting->after = bridge->batch.count;
    setting->has_stat = !is_sure(bridge, node) && setting->by_path;
    if (setting->has_stat)
        ask_path(&bridge->batch, OP_STAT, bridge->path);
    fault = ask_end(bridge);
    for (size_t i = setting->first; !fault && i < bridge->batch.count; i++)
        fault = refused(bridge, i);
    if (!fault && setting->has_stat
        && answer_attr(&bridge->batch, setting->after).kind != node->attr.kind)
        fault = ESTALE;
    return fault;
}

static void set_attr(struct bridge *bridge, const struct setting *setting)
{
    struct node *node = setting->node;
    if (setting->has_stat) {
        struct attr attr = answer_attr(&bridge->batch, setting->after);
        node_see(bridge, node, &attr);
    }
    if (asks(setting, FUSE_SET_ATTR_MODE))
        node->attr.mode = setting->mode;
    if (asks(setting, FUSE_SET_ATTR_MODE))
        node->has_mode |= !is_of_server(setting);
    if (asks(setting, FUSE_SET_ATTR_SIZE))
        node->attr.size = (uint64_t)setting->wanted->st_size;
    if (asks(setting, SET_OWNER)) {
        node->has_owner |= !is_of_server(setting);
        node->attr.uid = setting->uid;
        node->attr.gid = setting->gid;
    }
}

static void set_times(struct bridge *bridge, const struct setting *setting)
{
    struct node *node = setting->node;
    const struct stat *wanted = setting->wanted;
    times_status(bridge, node);
    if (asks(setting, FUSE_SET_ATTR_SIZE))
        times_changed(bridge, node);
    if (asks(setting, SET_ACCESS))
        node->times.access = asks(setting, FUSE_SET_ATTR_ATIME_NOW) ? now() : wanted->st_atim;
    if (asks(setting, SET_CHANGE))
        node->times.change = asks(setting, FUSE_SET_ATTR_MTIME_NOW) ? now() : wanted->st_mtim;
    if (asks(setting, FUSE_SET_ATTR_CTIME))
        node->times.status = wanted->st_ctim;
}

/* A change takes room for what is copied up by it, and a longer file for what it gets; a cut, which
   gives some back, is never refused. */
static int space_for_change(struct bridge *bridge, const struct setting *setting)
{
    const struct node *node = setting->node;
    uint64_t size = asks(setting, FUSE_SET_ATTR_SIZE) ? (uint64_t)setting->wanted->st_size
        : node->attr.size;
    return node->attr.kind == KIND_FILE ? space_for_bytes(bridge, node, size) : 0;
}

static int set(struct bridge *bridge, struct setting *setting)
{
    bool changes = asks(setting, SET_CALLS)
        && (is_of_server(setting) || asks(setting, FUSE_SET_ATTR_SIZE));
    bool looks = setting->by_path && !is_sure(bridge, setting->node);
    if (asks(setting, FUSE_SET_ATTR_MODE) && setting->node->attr.kind == KIND_LINK)
        return EOPNOTSUPP;
    int fault = changes ? space_for_change(bridge, setting) : 0;
    if (!fault && (changes || looks))
        fault = set_on_server(bridge, setting);
    if (fault) {
        setting->node->sure = 0;  /* some of it may have been made */
        return fault;
    }
    set_attr(bridge, setting);
    set_times(bridge, setting);
    if (changes && setting->by_path && asks(setting, FUSE_SET_ATTR_SIZE))
        node_written(bridge, setting->node);
    else if (changes && setting->by_path)
        node_touched(bridge, setting->node);
    keep_meta(bridge, setting->node);
    if (asks(setting, SET_CHANGE))
        keep_link_time(bridge, setting->node);
    return 0;
}

/* Owners as the engine has them. What they are shown as may be set again with --squash. */
static int take_owners(const struct bridge *bridge, struct setting *setting)
{
    const struct options *options = &bridge->options;
    const struct attr *attr = &setting->node->attr;
    const struct stat *wanted = setting->wanted;
    setting->uid = attr->uid;
    setting->gid = attr->gid;
    if (options->uids.squash) {
        bool is_same = (!asks(setting, FUSE_SET_ATTR_UID) || wanted->st_uid == options->uids.shown)
            && (!asks(setting, FUSE_SET_ATTR_GID) || wanted->st_gid == options->gids.shown);
        setting->what &= ~SET_OWNER;
        return is_same ? 0 : EPERM;
    }
    if (asks(setting, FUSE_SET_ATTR_UID)
        && !inner_id(&options->uids, wanted->st_uid, &setting->uid))
        return EINVAL;
    if (asks(setting, FUSE_SET_ATTR_GID)
        && !inner_id(&options->gids, wanted->st_gid, &setting->gid))
        return EINVAL;
    return 0;
}

/* Set-user-ID bits go with a new owner, also where root gives it, and with a cut by others; what
   the request itself says of the mode stays. A kernel that tells whose bits go asks for nothing, or
   for the time alone, where they are all that goes, as by a chown(2) that leaves both ids. */
static int judge_bits(struct bridge *bridge, struct setting *setting)
{
    struct node *node = setting->node;
    bool is_cut = asks(setting, FUSE_SET_ATTR_SIZE) && takes_bits(bridge);
    setting->mode = setting->wanted->st_mode & 07777;
    if (asks(setting, FUSE_SET_ATTR_MODE) && is_cut)
        setting->mode = without_bits(setting->mode);
    bool is_all = bridge->kernel.tells_kills && !asks(setting, ~FUSE_SET_ATTR_CTIME);
    if (asks(setting, FUSE_SET_ATTR_MODE) || !(is_cut || is_all || asks(setting, SET_OWNER)))
        return 0;
    return take_bits(bridge, node);
}

static void do_setattr(fuse_req_t request, fuse_ino_t number, struct stat *wanted, int what,
                       struct fuse_file_info *info)
{
    struct bridge *bridge = bridge_of(request);
    const struct handle *handle = handle_of(bridge, info);
    struct setting setting = {.node = node_of(bridge, number), .wanted = wanted, .what = what,
                              .opened = handle ? handle->opened : NULL};
    struct node *node = setting.node;
    struct stat stat;
    int fault = node ? take_owners(bridge, &setting) : ESTALE;
    if (!fault)
        fault = judge_bits(bridge, &setting);
    if (!fault) {
        int no_path = path_of(node, bridge->path);
        setting.by_path = no_path == 0;
        fault = no_path && no_path != ENOENT ? no_path : set(bridge, &setting);
    }
    if (fault) {
        fuse_reply_err(request, fault);
        return;
    }
    stat_of(bridge, node, &stat);
    fuse_reply_attr(request, &stat, timeout_of(bridge, node));
}

void setting_operations(struct fuse_lowlevel_ops *operations)
{
    operations->setattr = do_setattr;
}
