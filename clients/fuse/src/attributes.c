/* What an object looks like: what the server tells, and what the bridge alone keeps of it, which
   is its times, an inode number, the owner of a link, and the kind of a fifo, socket or device. */
#include "bridge.h"
#include "time_text.h"

#include <string.h>
#include <sys/sysmacros.h>

enum { TIMES = 3, META_HEAD = 4, META_BYTES = META_HEAD + NUMBER_BYTES + TIMES * (1 + TIME_BYTES),
       BLOCK = 512 };

/* For how long the kernel keeps what it was told, where nobody else changes the mount. */
static const double LONG = 365.0 * 86400.0;

/* The time of the kernel's last tick, as its own file systems have it. A finer one would differ
   from what the kernel keeps of a file that it caches, since it tells no change within one tick. */
struct timespec now(void)
{
    struct timespec time;
    clock_gettime(CLOCK_REALTIME_COARSE, &time);
    return time;
}

static struct times *times_of(struct bridge *bridge, struct node *node)
{
    if (!node->has_times)
        node->times = (struct times){bridge->began, bridge->began, bridge->began};
    node->has_times = true;
    return &node->times;
}

void times_new(struct node *node)
{
    struct timespec time = now();
    node->times = (struct times){time, time, time};
    node->has_times = true;
}

void times_changed(struct bridge *bridge, struct node *node)
{
    struct times *times = times_of(bridge, node);
    times->change = times->status = now();
}

void times_status(struct bridge *bridge, struct node *node)
{
    times_of(bridge, node)->status = now();
}

/* The attribute: a version, a kind, a device number, and three times. */

static char letter_of(mode_t special)
{
    switch (special) {
    case S_IFIFO: return 'p';
    case S_IFSOCK: return 's';
    case S_IFCHR: return 'c';
    case S_IFBLK: return 'b';
    default: return '-';
    }
}

static mode_t special_of(char letter)
{
    switch (letter) {
    case 'p': return S_IFIFO;
    case 's': return S_IFSOCK;
    case 'c': return S_IFCHR;
    case 'b': return S_IFBLK;
    default: return 0;
    }
}

static size_t meta_text(const struct node *node, char *text)
{
    const struct times *times = &node->times;
    const struct timespec *of[TIMES] = {&times->access, &times->change, &times->status};
    char *at = text;
    *at++ = '1';
    *at++ = ' ';
    *at++ = letter_of(node->special);
    *at++ = ' ';
    at = put_number(at, (uint64_t)node->device);
    for (size_t i = 0; i < TIMES; i++) {
        *at++ = ' ';
        at = put_time(at, of[i]);
    }
    return (size_t)(at - text);
}

void keep_meta(struct bridge *bridge, struct node *node)
{
    char text[META_BYTES];
    bool is_wanted = bridge->options.times || node->special;
    if (!is_wanted || node->attr.kind == KIND_LINK || path_of(node, bridge->path) != 0)
        return;
    times_of(bridge, node);
    size_t length = meta_text(node, text);
    if (ask_any(bridge) != 0)
        return;
    ask_setattr(&bridge->batch, bridge->path, META, text, length);
    ask_link_times(bridge, node, bridge->path);
    if (ask_end(bridge) == 0)
        node_touched(bridge, node);
}

static bool read_meta(const char *text, size_t length, struct meta *meta)
{
    struct times times;
    struct timespec *to[TIMES] = {&times.access, &times.change, &times.status};
    const char *end = text + length;
    uint64_t device;
    if (length < META_HEAD || text[0] != '1' || text[1] != ' ' || text[3] != ' '
        || !memchr("-pscb", text[2], 5))
        return false;
    const char *at = take_number(text + META_HEAD, end, &device);
    for (size_t i = 0; at && i < TIMES; i++)
        at = at < end && *at == ' ' ? take_time(at + 1, end, to[i]) : NULL;
    if (at != end)
        return false;
    meta->times = times;
    meta->special = special_of(text[2]);
    meta->device = text[2] == 'c' || text[2] == 'b' ? (dev_t)device : 0;
    return true;
}

bool wants_meta(const struct bridge *bridge, const struct node *node)
{
    return bridge->options.times && (bridge->options.shared || !node || !node->has_times);
}

struct look ask_look(struct bridge *bridge, const char *path, bool meta)
{
    struct look look = {.stat = ask_path(&bridge->batch, OP_STAT, path), .has_meta = meta};
    if (meta)
        look.meta = ask_two(&bridge->batch, OP_GETATTR, path, META);
    return look;
}

struct meta meta_of(const struct bridge *bridge, struct look look)
{
    struct meta meta = {.is_there = false};
    size_t length;
    if (!look.has_meta || refused(bridge, look.meta))
        return meta;
    const char *text = answer_text(&bridge->batch, look.meta, &length);
    meta.is_there = read_meta(text, length, &meta);
    return meta;
}

/* An image may bring the attribute, so it makes devices by an option alone; and none with --shared,
   where anybody may have written it. A device of this mount stays one. */
void node_see_meta(const struct bridge *bridge, struct node *node, const struct meta *meta)
{
    if (!meta->is_there)
        return;
    node->times = meta->times;
    node->has_times = true;
    bool is_device = meta->special == S_IFCHR || meta->special == S_IFBLK;
    bool is_trusted = bridge->options.devices && !bridge->options.shared;
    if (node->attr.kind == KIND_FILE && (!is_device || is_trusted)) {
        node->special = meta->special;
        node->device = meta->device;
    }
}

/* A file with more names than are known may be changed by one of the others. */
void node_see(struct bridge *bridge, struct node *node, const struct attr *attr)
{
    struct attr old = node->attr;
    node->attr = *attr;
    if (node->has_owner) {
        node->attr.uid = old.uid;
        node->attr.gid = old.gid;
    }
    if (node->has_mode)
        node->attr.mode = old.mode;
    bool is_known = attr->kind == KIND_DIRECTORY || attr->links <= names_of(node);
    node->sure = !bridge->options.shared && is_known ? bridge->epoch : 0;
}

bool is_sure(const struct bridge *bridge, const struct node *node)
{
    return node->sure == bridge->epoch;
}

double timeout_of(const struct bridge *bridge, const struct node *node)
{
    return is_sure(bridge, node) ? LONG : 0.0;
}

static mode_t type_of(const struct node *node)
{
    if (node->special)
        return node->special;
    return node->attr.kind == KIND_DIRECTORY ? S_IFDIR
        : node->attr.kind == KIND_FILE ? S_IFREG : S_IFLNK;
}

void stat_of(const struct bridge *bridge, const struct node *node, struct stat *stat)
{
    const struct timespec *began = &bridge->began;
    memset(stat, 0, sizeof *stat);
    stat->st_ino = node->shown;
    stat->st_mode = type_of(node) | node->attr.mode;
    stat->st_nlink = node->attr.links;
    stat->st_uid = shown_id(&bridge->options.uids, node->attr.uid);
    stat->st_gid = shown_id(&bridge->options.gids, node->attr.gid);
    stat->st_rdev = node->device;
    stat->st_size = (off_t)node->attr.size;
    stat->st_blksize = 4096;
    stat->st_blocks = (blkcnt_t)((node->attr.size + BLOCK - 1) / BLOCK);
    stat->st_atim = node->has_times ? node->times.access : *began;
    stat->st_mtim = node->has_times ? node->times.change : *began;
    stat->st_ctim = node->has_times ? node->times.status : *began;
}

void entry_of(const struct bridge *bridge, const struct node *node,
              struct fuse_entry_param *entry)
{
    memset(entry, 0, sizeof *entry);
    entry->ino = node->number;
    entry->attr_timeout = timeout_of(bridge, node);
    entry->entry_timeout = bridge->options.shared ? 0.0 : LONG;
    stat_of(bridge, node, &entry->attr);
}

/* Where the kernel didn't wait for the reply, it doesn't know the node by it. */
void reply_entry(fuse_req_t request, struct bridge *bridge, struct node *node)
{
    struct fuse_entry_param entry;
    entry_of(bridge, node, &entry);
    node->lookups++;
    if (fuse_reply_entry(request, &entry) != 0)
        node_forget(bridge, node, 1);
}
