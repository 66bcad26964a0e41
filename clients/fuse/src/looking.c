/* The operations that only ask: lookup, getattr, readlink, statfs; and forget and init. */
#include "bridge.h"

#include <errno.h>
#include <string.h>

/* What isn't there is kept by the kernel too, where nobody else makes it. */
static void reply_nothing(fuse_req_t request, struct bridge *bridge, struct node *parent,
                          const char *name, int fault)
{
    struct fuse_entry_param entry = {0};
    if (fault == ENOENT)
        node_unname(bridge, parent, name);
    if (fault != ENOENT || bridge->options.shared) {
        fuse_reply_err(request, fault);
        return;
    }
    entry.entry_timeout = 86400.0;
    fuse_reply_entry(request, &entry);
}

static void do_lookup(fuse_req_t request, fuse_ino_t number, const char *name)
{
    struct bridge *bridge = bridge_of(request);
    struct node *parent = node_of(bridge, number);
    struct look look = {0};
    int fault = parent ? path_in(parent, name, bridge->path) : ESTALE;
    if (!fault)
        fault = ask_any(bridge);
    if (!fault) {
        look = ask_look(bridge, bridge->path,
                        wants_meta(bridge, node_at(bridge, parent, name)));
        fault = ask_end(bridge);
    }
    if (fault) {
        fuse_reply_err(request, fault);
        return;
    }
    if (refused(bridge, look.stat)) {
        reply_nothing(request, bridge, parent, name, refused(bridge, look.stat));
        return;
    }
    struct attr attr = answer_attr(&bridge->batch, look.stat);
    struct meta meta = meta_of(bridge, look);
    struct node *node = node_found(bridge, parent, name, &attr);
    if (!node) {
        fuse_reply_err(request, ENOMEM);
        return;
    }
    node_see(bridge, node, &attr);
    node_see_meta(bridge, node, &meta);
    link_time_look(bridge, parent, name, node);
    reply_entry(request, bridge, node);
}

/* By what is open where the object has no name, or where the name may be another object's by now;
   what may keep what a file was is never asked. */
static struct opened *opened_to_ask(struct bridge *bridge, const struct node *node,
                                    const struct fuse_file_info *info)
{
    const struct handle *handle = handle_of(bridge, info);
    struct opened *opened = handle && is_alive(handle->opened) ? handle->opened : NULL;
    if (!node->names)
        return opened ? opened : live_opened(node, false);
    bool is_true = opened && (node->written || opened->access != OPEN_READ);
    return bridge->options.shared && is_true ? opened : NULL;
}

static int look_again(struct bridge *bridge, struct node *node, const struct opened *opened)
{
    struct look look = {0};
    int fault = opened ? ask_opened(bridge, opened) : path_of(node, bridge->path);
    if (!fault && !opened)
        fault = ask_any(bridge);
    if (fault)
        return fault;
    if (opened)
        look.stat = ask_descriptor(&bridge->batch, OP_FSTAT, opened->descriptor);
    else
        look = ask_look(bridge, bridge->path, wants_meta(bridge, node));
    fault = ask_end(bridge);
    if (!fault)
        fault = refused(bridge, look.stat);
    if (fault)
        return fault;
    struct attr attr = answer_attr(&bridge->batch, look.stat);
    struct meta meta = meta_of(bridge, look);
    if (attr.kind != node->attr.kind && node->number != ROOT)
        return ESTALE;
    node_see(bridge, node, &attr);
    node_see_meta(bridge, node, &meta);
    if (node->names)
        link_time_look(bridge, node->names->parent, node->names->text, node);
    return 0;
}

static void do_getattr(fuse_req_t request, fuse_ino_t number, struct fuse_file_info *info)
{
    struct bridge *bridge = bridge_of(request);
    struct node *node = node_of(bridge, number);
    struct stat stat;
    int fault = node ? 0 : ESTALE;
    if (node && !is_sure(bridge, node)) {
        struct opened *opened = opened_to_ask(bridge, node, info);
        bool is_gone = !node->names && node->number != ROOT && !opened;
        if (is_gone)
            node->attr.links = 0;
        else
            fault = look_again(bridge, node, opened);
    }
    if (fault) {
        fuse_reply_err(request, fault);
        return;
    }
    stat_of(bridge, node, &stat);
    fuse_reply_attr(request, &stat, timeout_of(bridge, node));
}

static void do_readlink(fuse_req_t request, fuse_ino_t number)
{
    struct bridge *bridge = bridge_of(request);
    struct node *node = node_of(bridge, number);
    char target[PATH_BYTES];
    size_t link = 0, length;
    int fault = node ? path_of(node, bridge->path) : ESTALE;
    if (!fault)
        fault = ask_any(bridge);
    if (!fault) {
        link = ask_path(&bridge->batch, OP_READLINK, bridge->path);
        fault = ask_end(bridge);
    }
    if (!fault)
        fault = refused(bridge, link);
    if (fault) {
        fuse_reply_err(request, fault);
        return;
    }
    const char *text = answer_text(&bridge->batch, link, &length);
    memcpy(target, text, length);
    target[length] = 0;
    fuse_reply_readlink(request, target);
}

static void do_statfs(fuse_req_t request, fuse_ino_t number)
{
    struct statvfs stat;
    (void)number;
    space_told(bridge_of(request), &stat);
    fuse_reply_statfs(request, &stat);
}

static void do_forget(fuse_req_t request, fuse_ino_t number, uint64_t lookups)
{
    struct bridge *bridge = bridge_of(request);
    struct node *node = node_of(bridge, number);
    if (node)
        node_forget(bridge, node, lookups);
    fuse_reply_none(request);
}

static void do_forget_multi(fuse_req_t request, size_t count, struct fuse_forget_data *forgets)
{
    struct bridge *bridge = bridge_of(request);
    for (size_t i = 0; i < count; i++) {
        struct node *node = node_of(bridge, forgets[i].ino);
        if (node)
            node_forget(bridge, node, forgets[i].nlookup);
    }
    fuse_reply_none(request);
}

/* The kernel judges locks; which set-user-ID bits go it clears itself or tells. With a bound it
   keeps back nothing that is written, since that may have to be refused. */
static void do_init(void *userdata, struct fuse_conn_info *connection)
{
    struct bridge *bridge = userdata;
    unsigned wanted = FUSE_CAP_READDIRPLUS;
    unsigned unwanted = FUSE_CAP_READDIRPLUS_AUTO | FUSE_CAP_HANDLE_KILLPRIV;
    unsigned cached = FUSE_CAP_CACHE_SYMLINKS | (bridge->options.size ? 0
                                                 : FUSE_CAP_WRITEBACK_CACHE);
    if (bridge->options.size)
        unwanted |= FUSE_CAP_WRITEBACK_CACHE;
    if (connection->capable & FUSE_CAP_NO_OPEN_SUPPORT)
        untold_begin(bridge);
    if (bridge->untold.is_on)
        unwanted |= FUSE_CAP_ATOMIC_O_TRUNC;  /* so that the cut of an open is told by itself */
    if (bridge->options.shared)
        unwanted |= cached;
    else
        wanted |= cached;
    if (!bridge->options.shared)
        unwanted |= FUSE_CAP_AUTO_INVAL_DATA;
    connection->want = (connection->want | (connection->capable & wanted)) & ~unwanted;
    space_begin(bridge);  /* all buffers of the bridge are there by now */
}

void looking_operations(struct fuse_lowlevel_ops *operations)
{
    operations->init = do_init;
    operations->lookup = do_lookup;
    operations->forget = do_forget;
    operations->forget_multi = do_forget_multi;
    operations->getattr = do_getattr;
    operations->readlink = do_readlink;
    operations->statfs = do_statfs;
}
