/* The operations on directories: opendir, readdir, readdirplus, releasedir.

   A listing is taken whole when it is begun, and the names in it are looked at some way ahead,
   so that a directory takes two round trips where it is small. What was looked at ahead counts
   only as long as nothing is changed. */
#include "bridge.h"

#include <errno.h>
#include <stdlib.h>
#include <string.h>

enum {
    DOTS = 2,               /* the names before the first */
    AHEAD = 256,            /* how many names are looked at in one go */
    LISTS_MAX = 4096,
    LISTED_MAX = 128 << 20, /* bytes of all listings */
    UNKNOWN = -1,           /* the inode number of what wasn't looked at */
};

struct item {
    char *name;
    uint64_t stamp;         /* one more than the changes there were when it was looked at */
    int fault;              /* why it can't be looked at, or 0 */
    struct attr attr;
    struct meta meta;
    struct look look;
    bool asked;
};

/* All readers of a directory share one, as long as nothing is changed. */
struct listing {
    struct node *node;
    unsigned handles;
    uint32_t uid;           /* who had it taken */
    size_t bytes;
    uint64_t changes;       /* how many there were before it was taken */
    size_t count;
    char *texts;
    struct item items[];
};

static void listing_free(struct bridge *bridge, struct listing *listing)
{
    if (listing->node->listing == listing)
        listing->node->listing = NULL;
    bridge->listed -= listing->bytes;
    free(listing->texts);
    free(listing);
}

/* A handle less has it; with the last one it goes. */
void listing_release(struct bridge *bridge, struct listing *listing)
{
    if (listing && --listing->handles == 0)
        listing_free(bridge, listing);
}

/* Whether there is room for so many bytes more. Who has none yet may have one in any case, but
   nobody except root more than three quarters of all. */
static bool has_room(const struct bridge *bridge, uint32_t uid, size_t bytes)
{
    size_t own = 0;
    for (size_t i = 0; i < bridge->handle_room; i++) {
        const struct handle *handle = bridge->handles[i];
        if (handle && handle->listing && handle->listing->uid == uid)
            own += handle->listing->bytes / handle->listing->handles;
    }
    size_t most = uid == 0 ? LISTED_MAX : LISTED_MAX / 4 * 3;
    return own == 0 || (own + bytes <= most && bridge->listed + bytes <= LISTED_MAX);
}

/* Names. */

static struct listing *kept_names(const struct batch *batch, size_t first, size_t lists)
{
    size_t count = 0, bytes = 1, length;
    const char *name;
    for (size_t i = first; i < first + lists; i++)
        for (struct names at = answer_names(batch, i); (name = next_name(&at, &length)); count++)
            bytes += length + 1;
    struct listing *listing = calloc(1, sizeof *listing + count * sizeof listing->items[0]);
    char *text = listing ? malloc(bytes) : NULL;
    if (!text) {
        free(listing);
        return NULL;
    }
    listing->texts = text;
    listing->bytes = bytes + sizeof *listing + count * sizeof listing->items[0];
    for (size_t i = first; i < first + lists; i++)
        for (struct names at = answer_names(batch, i); (name = next_name(&at, &length));) {
            listing->items[listing->count++].name = text;
            memcpy(text, name, length);
            text[length] = 0;
            text += length + 1;
        }
    return listing;
}

/* Tries so many lists; `more` where there may be names behind the last. */
static int try_lists(struct bridge *bridge, size_t lists, struct listing **listing, bool *more)
{
    uint32_t descriptor;
    int fault = ask_for_moment(bridge);
    if (fault)
        return fault;
    size_t open = ask_opening(bridge, OPEN_READ | OPEN_DIRECTORY, 0, bridge->path, &descriptor);
    for (size_t i = 0; i < lists; i++)
        ask_count(&bridge->batch, OP_LIST, descriptor, NAMES_MAX);
    ask_closing(bridge, descriptor);
    fault = ask_end(bridge);
    for (size_t i = open; !fault && i <= open + lists; i++)
        fault = refused(bridge, i);
    if (fault)
        return fault;
    *more = answer_names(&bridge->batch, open + lists).left == NAMES_MAX;
    *listing = *more ? NULL : kept_names(&bridge->batch, open + 1, lists);
    return *more || *listing ? 0 : ENOMEM;
}

/* A directory without a name was removed, and has nothing in it. */
static int take_listing(struct bridge *bridge, struct node *node, struct listing **listing)
{
    bool more = true;
    int fault = path_of(node, bridge->path);
    *listing = NULL;
    if (fault == ENOENT) {
        more = false;
        *listing = calloc(1, sizeof **listing);
        fault = *listing ? 0 : ENOMEM;
    }
    for (size_t lists = 1; !fault && more; lists *= 8)
        fault = lists > LISTS_MAX ? ENOMEM : try_lists(bridge, lists, listing, &more);
    return fault;
}

/* The directory's listing, where that is as new as it can be, or else one that is taken now. */
static int list(struct bridge *bridge, struct handle *handle)
{
    struct node *node = handle->node;
    listing_release(bridge, handle->listing);
    handle->listing = NULL;
    struct listing *listing = node->listing;
    if (!listing || listing->changes != bridge->changes || bridge->options.shared) {
        int fault = take_listing(bridge, node, &listing);
        if (fault)
            return fault;
        if (!has_room(bridge, handle->uid, listing->bytes)) {
            free(listing->texts);
            free(listing);
            return ENOMEM;
        }
        listing->node = node;
        listing->uid = handle->uid;
        listing->changes = bridge->changes;
        bridge->listed += listing->bytes;
        node->listing = listing;
    }
    listing->handles++;
    handle->listing = listing;
    return 0;
}

/* Attributes. */

static bool is_fresh(struct bridge *bridge, const struct node *parent, const struct item *item)
{
    const struct node *node = node_at(bridge, parent, item->name);
    if (node && is_sure(bridge, node) && !wants_meta(bridge, node))
        return true;
    return item->stamp == bridge->changes + 1 && !bridge->options.shared;
}

static void ask_item(struct bridge *bridge, const struct node *parent, struct item *item)
{
    item->asked = !is_fresh(bridge, parent, item);
    if (!item->asked)
        return;
    item->fault = path_in(parent, item->name, bridge->path);
    item->asked = item->fault == 0;
    if (item->asked)
        item->look = ask_look(bridge, bridge->path, bridge->options.times);
}

static void take_item(const struct bridge *bridge, struct item *item)
{
    if (!item->asked)
        return;
    item->fault = refused(bridge, item->look.stat);
    item->stamp = bridge->changes + 1;
    if (item->fault)
        return;
    item->attr = answer_attr(&bridge->batch, item->look.stat);
    item->meta = meta_of(bridge, item->look);
}

/* Looks at the names from one on that aren't known, as many as a page may need. */
static int look_ahead(struct bridge *bridge, const struct node *parent, struct listing *listing,
                      size_t first, size_t page)
{
    size_t count = !bridge->options.shared && page < AHEAD ? AHEAD : page;
    size_t end = count < listing->count - first ? first + count : listing->count;
    bool all_fresh = true;
    for (size_t i = first; i < end && i < first + page; i++)
        all_fresh = all_fresh && is_fresh(bridge, parent, &listing->items[i]);
    if (all_fresh)
        return 0;
    int fault = ask_any(bridge);
    if (fault)
        return fault;
    for (size_t i = first; i < end; i++)
        ask_item(bridge, parent, &listing->items[i]);
    fault = ask_end(bridge);
    for (size_t i = first; !fault && i < end; i++)
        take_item(bridge, &listing->items[i]);
    return fault;
}

/* Pages. */

struct page {
    fuse_req_t request;
    struct bridge *bridge;
    struct node *parent;
    char *bytes;
    size_t size, used;
    bool plus;
};

static size_t length_of(const struct page *page, const char *name)
{
    return page->plus ? fuse_add_direntry_plus(page->request, NULL, 0, name, NULL, 0)
        : fuse_add_direntry(page->request, NULL, 0, name, NULL, 0);
}

static void add(struct page *page, const char *name, const struct fuse_entry_param *entry,
                off_t next)
{
    char *at = page->bytes + page->used;
    size_t left = page->size - page->used;
    page->used += page->plus
        ? fuse_add_direntry_plus(page->request, at, left, name, entry, next)
        : fuse_add_direntry(page->request, at, left, name, &entry->attr, next);
}

/* The node of an item, which counts as looked up where the kernel is told its attributes. */
static struct node *item_node(struct page *page, struct item *item)
{
    struct bridge *bridge = page->bridge;
    struct node *known = node_at(bridge, page->parent, item->name);
    if (known && is_sure(bridge, known))
        return known;
    if (!page->plus || item->fault || item->stamp == 0)
        return page->plus ? NULL : known;
    struct node *node = node_found(bridge, page->parent, item->name, &item->attr);
    if (node) {
        node_see(bridge, node, &item->attr);
        node_see_meta(bridge, node, &item->meta);
        link_time_see(bridge, page->parent, item->name, node);
    }
    return node;
}

static void add_item(struct page *page, struct item *item, off_t next)
{
    struct fuse_entry_param entry = {0};
    struct node *node = item_node(page, item);
    if (!node && page->plus && item->fault == ENOENT)
        return;
    entry.attr.st_ino = (ino_t)UNKNOWN;
    if (node)
        entry_of(page->bridge, node, &entry);
    if (node && page->plus)
        node->lookups++;
    add(page, item->name, &entry, next);
}

static void add_dots(struct page *page, off_t *at)
{
    struct fuse_entry_param entry = {.attr.st_mode = S_IFDIR};
    const struct name *name = page->parent->names;
    uint64_t numbers[] = {page->parent->shown, name ? name->parent->shown : ROOT};
    for (; *at < DOTS; (*at)++) {
        entry.attr.st_ino = numbers[*at];
        add(page, *at == 0 ? "." : "..", &entry, *at + 1);
    }
}

/* How many items from one on have room. */
static size_t fitting(const struct page *page, const struct listing *listing, size_t first)
{
    size_t used = page->used, count = 0;
    while (first + count < listing->count) {
        used += length_of(page, listing->items[first + count].name);
        if (used > page->size)
            break;
        count++;
    }
    return count;
}

/* Whether there are links among the items that were looked at, which have their times elsewhere. */
static bool has_link(const struct listing *listing, size_t first, size_t count)
{
    const struct item *item = listing->items + first, *end = item + count;
    while (item < end && (item->stamp == 0 || item->fault || item->attr.kind != KIND_LINK))
        item++;
    return item < end;
}

/* Where the kernel didn't wait for the page, it doesn't know the nodes by it. */
static void forget_page(struct page *page, struct listing *listing, size_t first, size_t count)
{
    for (size_t i = first; page->plus && i < first + count; i++) {
        struct node *node = node_at(page->bridge, page->parent, listing->items[i].name);
        if (node)
            node_forget(page->bridge, node, 1);
    }
}

static int fill(struct page *page, struct listing *listing, off_t at)
{
    if (length_of(page, "..") * DOTS > page->size)
        return EINVAL;
    add_dots(page, &at);
    size_t first = (size_t)at - DOTS;
    size_t count = fitting(page, listing, first);
    int fault = page->plus && count > 0
        ? look_ahead(page->bridge, page->parent, listing, first, count) : 0;
    if (!fault && page->plus && has_link(listing, first, count))
        link_times_look(page->bridge, page->parent);
    for (size_t i = first; !fault && i < first + count; i++)
        add_item(page, &listing->items[i], (off_t)i + 1 + DOTS);
    if (!fault && fuse_reply_buf(page->request, page->bytes, page->used) != 0)
        forget_page(page, listing, first, count);
    return fault;
}

static void read_directory(fuse_req_t request, size_t size, off_t at,
                           struct fuse_file_info *info, bool plus)
{
    struct bridge *bridge = bridge_of(request);
    struct handle *handle = handle_of(bridge, info);
    int fault = !handle || at < 0 ? EBADF : 0;
    if (!fault && (at == 0 || !handle->listing))
        fault = list(bridge, handle);
    struct page page = {request, bridge, handle ? handle->node : NULL, NULL, size, 0, plus};
    if (!fault) {
        page.bytes = malloc(size);
        fault = page.bytes ? fill(&page, handle->listing, at) : ENOMEM;
    }
    if (fault)
        fuse_reply_err(request, fault);
    free(page.bytes);
}

static void do_readdir(fuse_req_t request, fuse_ino_t number, size_t size, off_t at,
                       struct fuse_file_info *info)
{
    (void)number;
    read_directory(request, size, at, info, false);
}

static void do_readdirplus(fuse_req_t request, fuse_ino_t number, size_t size, off_t at,
                           struct fuse_file_info *info)
{
    (void)number;
    read_directory(request, size, at, info, true);
}

static void do_opendir(fuse_req_t request, fuse_ino_t number, struct fuse_file_info *info)
{
    struct bridge *bridge = bridge_of(request);
    struct node *node = node_of(bridge, number);
    struct handle *handle = node ? handle_new(bridge, node) : NULL;
    if (!handle) {
        fuse_reply_err(request, node ? ENOMEM : ESTALE);
        return;
    }
    info->fh = handle->number;
    info->keep_cache = info->cache_readdir = !bridge->options.shared;
    if (fuse_reply_open(request, info) != 0)
        handle_free(bridge, handle);
}

static void do_releasedir(fuse_req_t request, fuse_ino_t number, struct fuse_file_info *info)
{
    (void)number;
    struct bridge *bridge = bridge_of(request);
    struct handle *handle = handle_of(bridge, info);
    if (handle)
        handle_free(bridge, handle);
    fuse_reply_err(request, handle ? 0 : EBADF);
}

void listing_operations(struct fuse_lowlevel_ops *operations)
{
    operations->opendir = do_opendir;
    operations->readdir = do_readdir;
    operations->readdirplus = do_readdirplus;
    operations->releasedir = do_releasedir;
}
