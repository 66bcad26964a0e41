/* The operations on files that are open: open, read, write, release, fallocate. */
#include "bridge.h"

#include <errno.h>
#include <fcntl.h>
#include <linux/falloc.h>

enum { PIECES_MAX = 64 };

/* The engine opens it, and reads the beginning of what is only read. */
static int open_on_server(struct bridge *bridge, struct handle *handle, unsigned flags)
{
    struct node *node = handle->node;
    uint32_t descriptor;
    int fault = path_of(node, bridge->path);
    if (!fault)
        fault = ask_for_open(bridge);
    if (fault)
        return fault;
    size_t open = ask_opening(bridge, flags, 0, bridge->path, &descriptor);
    if (flags & OPEN_EMPTY)
        ask_no_capability(bridge, node);
    if (flags == OPEN_READ && !bridge->transport->is_near)
        ask_ahead(bridge, node, descriptor);
    fault = ask_end(bridge);
    if (!fault)
        fault = refused(bridge, open);
    if (fault)
        return fault;
    handle->opened = opened_new(bridge, node, flags, descriptor);
    if (!handle->opened)
        return ENOMEM;
    handle->opened->handles = 1;
    take_ahead(bridge, handle, open + 1);
    return 0;
}

/* What the engine has open already is shared, and only emptied where that is asked for. */
static int share(struct bridge *bridge, struct handle *handle, struct opened *opened,
                 unsigned flags)
{
    if (flags & OPEN_EMPTY) {
        int fault = ask_opened(bridge, opened);
        if (fault)
            return fault;
        size_t truncate = ask_truncate(&bridge->batch, opened->descriptor, 0);
        ask_no_capability(bridge, handle->node);
        fault = ask_end(bridge);
        if (!fault)
            fault = refused(bridge, truncate);
        if (fault)
            return fault;
    }
    opened->handles++;
    handle->opened = opened;
    return 0;
}

static int open_handle(struct bridge *bridge, struct handle *handle, unsigned flags)
{
    struct node *node = handle->node;
    int fault = (flags & OPEN_EMPTY) && takes_bits(bridge) ? take_bits(bridge, node) : 0;
    struct opened *opened = opened_for(bridge, node, flags);
    if (!fault && flags != OPEN_READ)
        fault = space_for_bytes(bridge, node, flags & OPEN_EMPTY ? 0 : node->attr.size);
    if (!fault)
        fault = opened ? share(bridge, handle, opened, flags)
            : open_on_server(bridge, handle, flags);
    if (fault)
        return fault;
    if (flags & OPEN_EMPTY) {
        node->attr.size = 0;
        times_changed(bridge, node);
        handle->changed = true;
    }
    if (flags != OPEN_READ)
        node_written(bridge, node);
    return 0;
}

/* The kernel is told once that it needn't tell. */
static void do_open(fuse_req_t request, fuse_ino_t number, struct fuse_file_info *info)
{
    struct bridge *bridge = bridge_of(request);
    struct node *node = node_of(bridge, number);
    if (bridge->untold.is_on) {
        fuse_reply_err(request, ENOSYS);
        return;
    }
    struct handle *handle = node ? handle_new(bridge, node) : NULL;
    if (!handle) {
        fuse_reply_err(request, node ? ENOMEM : ESTALE);
        return;
    }
    int fault = open_handle(bridge, handle, open_flags(bridge, info->flags));
    if (fault) {
        handle_free(bridge, handle);
        fuse_reply_err(request, fault);
        return;
    }
    info->fh = handle->number;
    info->direct_io = bridge->options.shared;
    info->keep_cache = is_sure(bridge, node);
    if (fuse_reply_open(request, info) != 0)
        handle_free(bridge, handle);
}

static void ask_place(struct bridge *bridge, const struct opened *opened, uint64_t offset)
{
    if (opened->place != offset)
        ask_seek(&bridge->batch, opened->descriptor, offset);
}

static size_t piece_of(size_t size, size_t at)
{
    return size - at < PIECE_MAX ? size - at : PIECE_MAX;
}

/* The same at once, where it isn't there already. */
static int seek(struct bridge *bridge, const struct opened *opened, uint64_t offset)
{
    int fault = ask_opened(bridge, opened);
    if (fault || opened->place == offset)
        return fault;
    size_t seek = ask_seek(&bridge->batch, opened->descriptor, offset);
    fault = ask_end(bridge);
    return fault ? fault : refused(bridge, seek);
}

/* Why the request that moves the place was refused, where there is one before number `first`. */
static int refused_place(const struct bridge *bridge, size_t first)
{
    return first > 0 && bridge->batch.asks[first - 1].op == OP_SEEK ? refused(bridge, first - 1)
        : 0;
}

static void reply_pieces(fuse_req_t request, struct bridge *bridge, struct opened *opened,
                         size_t first, uint64_t offset)
{
    struct iovec pieces[PIECES_MAX];
    int count = 0, fault = refused_place(bridge, first);
    size_t total = 0;
    for (size_t i = first; !fault && i < bridge->batch.count; i++) {
        size_t length;
        fault = refused(bridge, i);
        if (fault)
            break;
        const char *block = answer_block(&bridge->batch, i, &length);
        pieces[count++] = (struct iovec){(void *)(uintptr_t)block, length};
        total += length;
        if (length < bridge->batch.asks[i].bound)
            break;
    }
    opened->place = fault ? PLACE_UNKNOWN : offset + total;
    if (fault && count == 0)
        fuse_reply_err(request, fault);
    else
        fuse_reply_iov(request, pieces, count);
}

/* By frames: all pieces in one go. */
static void read_by_frames(fuse_req_t request, struct bridge *bridge, struct opened *opened,
                           size_t size, uint64_t place)
{
    int fault = ask_opened(bridge, opened);
    if (fault) {
        fuse_reply_err(request, fault);
        return;
    }
    ask_place(bridge, opened, place);
    size_t first = bridge->batch.count;
    for (size_t at = 0; at < size; at += PIECE_MAX)
        ask_count(&bridge->batch, OP_READ, opened->descriptor, (uint32_t)piece_of(size, at));
    opened->place = PLACE_UNKNOWN;
    fault = ask_end(bridge);
    if (fault)
        fuse_reply_err(request, fault);
    else
        reply_pieces(request, bridge, opened, first, place);
}

/* Without a frame: the engine puts the bytes where the kernel takes them from. */
static void read_at_once(fuse_req_t request, struct bridge *bridge, struct opened *opened,
                         size_t size, uint64_t place)
{
    struct batch *batch = &bridge->batch;
    size_t total = 0;
    int fault = seek(bridge, opened, place);
    if (!fault && !batch_room(batch, size))
        fault = ENOMEM;
    char *bytes = (char *)batch->in + batch->in_length;
    opened->place = PLACE_UNKNOWN;
    while (!fault && total < size) {
        size_t count = 0, most = piece_of(size, total);
        fault = bridge->transport->read(bridge, opened->connection, opened->descriptor,
                                        bytes + total, most, &count);
        total += fault ? 0 : count;
        if (count < most)
            break;
    }
    if (!fault)
        opened->place = place + total;
    if (fault == EIO)
        connection_drop(bridge, opened->connection);
    if (fault && total == 0)
        fuse_reply_err(request, fault);
    else
        fuse_reply_buf(request, bytes, total);
}

/* By what a request reads or writes: its handle's, or the node's where opens aren't told. */
static int find_opened(struct bridge *bridge, struct node *node, const struct handle *handle,
                       bool writes, struct opened **opened)
{
    *opened = NULL;
    if (!node)
        return ESTALE;
    if (bridge->untold.is_on)
        return untold_open(bridge, node, writes, opened);
    *opened = handle ? handle->opened : NULL;
    return is_alive(*opened) ? 0 : EIO;
}

static void do_read(fuse_req_t request, fuse_ino_t number, size_t size, off_t offset,
                    struct fuse_file_info *info)
{
    struct bridge *bridge = bridge_of(request);
    struct handle *handle = handle_of(bridge, info);
    struct node *node = handle ? handle->node : node_of(bridge, number);
    struct opened *opened;
    uint64_t place = (uint64_t)offset;
    int fault = find_opened(bridge, node, handle, false, &opened);
    if (fault) {
        fuse_reply_err(request, fault);
        return;
    }
    if (!handle || !reply_ahead(request, bridge, handle, size, place)) {
        size = size < (size_t)PIECES_MAX * PIECE_MAX ? size : (size_t)PIECES_MAX * PIECE_MAX;
        if (bridge->transport->read)
            read_at_once(request, bridge, opened, size, place);
        else
            read_by_frames(request, bridge, opened, size, place);
    }
    node->fetched = true;
}

/* How much of the pieces was written, up to the first that didn't fit whole. */
static size_t written(struct bridge *bridge, struct opened *opened, size_t first,
                      uint64_t offset, int *fault)
{
    size_t total = 0;
    bool is_short = false;
    *fault = refused_place(bridge, first);
    for (size_t i = first; !*fault && !is_short && i < bridge->batch.count; i++) {
        *fault = refused(bridge, i);
        uint32_t count = *fault ? 0 : answer_number(&bridge->batch, i);
        is_short = count < bridge->batch.asks[i].bound;
        total += count;
    }
    opened->place = *fault || is_short || opened->appends ? PLACE_UNKNOWN : offset + total;
    return total;
}

/* Without frames, piece by piece. */
static size_t write_at_once(struct bridge *bridge, struct opened *opened, const char *bytes,
                            size_t size, uint64_t place, int *fault)
{
    size_t total = 0;
    *fault = seek(bridge, opened, place);
    opened->place = PLACE_UNKNOWN;
    while (!*fault && total < size) {
        size_t count = 0, most = piece_of(size, total);
        *fault = bridge->transport->write(bridge, opened->connection, opened->descriptor,
                                          bytes + total, most, &count);
        total += *fault ? 0 : count;
        bridge->changes += count > 0;
        if (count < most)
            break;
    }
    if (!*fault)
        opened->place = place + total;
    if (*fault == EIO)
        connection_drop(bridge, opened->connection);
    return total;
}

/* All pieces in one go; how much was written, and why no more was. */
static size_t write_pieces(struct bridge *bridge, struct node *node, struct opened *opened,
                           const char *bytes, size_t size, uint64_t place, int *fault)
{
    *fault = ask_opened(bridge, opened);
    if (*fault)
        return 0;
    if (bridge->options.shared)
        ask_no_capability(bridge, node);
    if (!opened->appends)
        ask_place(bridge, opened, place);
    size_t first = bridge->batch.count;
    for (size_t at = 0; at < size; at += PIECE_MAX)
        ask_write(&bridge->batch, opened->descriptor, bytes + at, (uint32_t)piece_of(size, at));
    opened->place = PLACE_UNKNOWN;
    *fault = ask_end(bridge);
    return *fault ? 0 : written(bridge, opened, first, place, fault);
}

/* Bits of others go before the bytes change, and there must be room, but for what the kernel has
   taken already. */
static int may_write(struct bridge *bridge, struct node *node, uint64_t end, bool is_taken)
{
    int fault = !is_taken && takes_bits(bridge) ? take_bits(bridge, node) : 0;
    return fault || is_taken ? fault : space_for_bytes(bridge, node, end);
}

static void note_written(struct bridge *bridge, struct node *node, uint64_t end, bool is_by_cache)
{
    if (end > node->attr.size)
        node->attr.size = end;
    if (!is_by_cache || bridge->options.shared)
        times_changed(bridge, node);
}

/* What the kernel held back and the engine could not take is lost, which is told in the end; of what
   failed before it began, syncfs(2) tells nothing. */
static void refuse_write(fuse_req_t request, struct bridge *bridge, bool was_held, int fault)
{
    if (was_held && (fault == EIO || fault == ENOMEM))
        bridge->kernel.unsaved = true;
    fuse_reply_err(request, fault);
}

/* Of what the kernel writes from its cache nobody sees how much was written, so all has to be. */
static void do_write(fuse_req_t request, fuse_ino_t number, const char *bytes, size_t size,
                     off_t offset, struct fuse_file_info *info)
{
    struct bridge *bridge = bridge_of(request);
    struct handle *handle = handle_of(bridge, info);
    struct node *node = handle ? handle->node : node_of(bridge, number);
    struct opened *opened;
    uint64_t place = (uint64_t)offset;
    int fault = find_opened(bridge, node, handle, true, &opened);
    if (fault == EIO && handle && info->writepage) {
        opened = live_opened(handle->node, true);
        fault = is_alive(opened) ? 0 : EIO;
    }
    if (!fault && size > 0)
        fault = may_write(bridge, node, place + size, info->writepage);
    size_t total = fault ? 0 : bridge->transport->write
        ? write_at_once(bridge, opened, bytes, size, place, &fault)
        : write_pieces(bridge, node, opened, bytes, size, place, &fault);
    if (fault && total == 0) {
        refuse_write(request, bridge, info->writepage, fault);
        return;
    }
    if (total > 0) {
        note_written(bridge, node, place + total, info->writepage);
        if (handle && (!info->writepage || bridge->options.shared))
            handle->changed = true;
    }
    bool is_lost = total < size && (total == 0 || info->writepage);
    if (is_lost)
        refuse_write(request, bridge, info->writepage, fault ? fault : EFBIG);
    else
        fuse_reply_write(request, total);
}

static void do_release(fuse_req_t request, fuse_ino_t number, struct fuse_file_info *info)
{
    (void)number;
    struct bridge *bridge = bridge_of(request);
    struct handle *handle = handle_of(bridge, info);
    if (handle && handle->changed)
        keep_meta(bridge, handle->node);
    if (handle)
        handle_free(bridge, handle);
    fuse_reply_err(request, handle || bridge->untold.is_on ? 0 : EBADF);
}

/* What is beyond the end becomes zeros; room isn't kept, and no holes are made. */
static int grow(struct bridge *bridge, struct node *node, struct handle *handle, uint64_t size)
{
    struct opened *opened;
    int fault = find_opened(bridge, node, handle, true, &opened);
    if (!fault)
        fault = ask_opened(bridge, opened);
    if (fault)
        return fault;
    size_t stat = ask_descriptor(&bridge->batch, OP_FSTAT, opened->descriptor);
    fault = ask_end(bridge);
    if (!fault)
        fault = refused(bridge, stat);
    if (fault || answer_attr(&bridge->batch, stat).size >= size)
        return fault;
    if (bridge->kernel.caller != 0)
        fault = take_bits(bridge, node);
    if (!fault)
        fault = space_for_bytes(bridge, node, size);
    if (!fault)
        fault = ask_opened(bridge, opened);
    if (fault)
        return fault;
    size_t truncate = ask_truncate(&bridge->batch, opened->descriptor, size);
    fault = ask_end(bridge);
    if (!fault)
        fault = refused(bridge, truncate);
    if (fault)
        return fault;
    node->attr.size = size;
    times_changed(bridge, node);
    if (handle)
        handle->changed = true;
    else
        keep_meta(bridge, node);
    return 0;
}

static void do_fallocate(fuse_req_t request, fuse_ino_t number, int mode, off_t offset,
                         off_t length, struct fuse_file_info *info)
{
    struct bridge *bridge = bridge_of(request);
    struct handle *handle = handle_of(bridge, info);
    struct node *node = handle ? handle->node : node_of(bridge, number);
    uint64_t end = (uint64_t)offset + (uint64_t)length;
    if (mode & ~FALLOC_FL_KEEP_SIZE)
        fuse_reply_err(request, EOPNOTSUPP);
    else if (!node || (!handle && !bridge->untold.is_on))
        fuse_reply_err(request, EBADF);
    else
        fuse_reply_err(request, mode ? 0 : grow(bridge, node, handle, end));
}

void file_operations(struct fuse_lowlevel_ops *operations)
{
    operations->open = do_open;
    operations->read = do_read;
    operations->write = do_write;
    operations->release = do_release;
    operations->fallocate = do_fallocate;
}
