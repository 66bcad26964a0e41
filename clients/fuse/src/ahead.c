/* Reading ahead: the beginning of a file is read with the open that asks for it, where nobody
   else changes the mount and the kernel hasn't the bytes already. */
#include "bridge.h"

#include <stdlib.h>
#include <string.h>

enum { AHEAD_MAX = 2 * PIECE_MAX, AHEAD_SUM = 4 << 20 };

/* One byte more than the file has tells that it ends there. */
void ask_ahead(struct bridge *bridge, struct node *node, uint32_t descriptor)
{
    uint64_t size = node->attr.size + 1;
    if (node->fetched || !is_sure(bridge, node) || size == 1 || bridge->ahead >= AHEAD_SUM)
        return;
    size = size < AHEAD_MAX ? size : AHEAD_MAX;
    for (uint64_t at = 0; at < size; at += PIECE_MAX) {
        uint64_t piece = size - at < PIECE_MAX ? size - at : PIECE_MAX;
        ask_count(&bridge->batch, OP_READ, descriptor, (uint32_t)piece);
    }
}

void take_ahead(struct bridge *bridge, struct handle *handle, size_t first)
{
    const struct batch *batch = &bridge->batch;
    size_t length = 0, asked = 0;
    char *bytes = first < batch->count ? malloc(AHEAD_MAX) : NULL;
    handle->opened->place = first < batch->count ? PLACE_UNKNOWN : 0;
    for (size_t i = first; bytes && i < batch->count && !refused(bridge, i); i++) {
        size_t count;
        const char *block = answer_block(batch, i, &count);
        memcpy(bytes + length, block, count);
        length += count;
        asked += batch->asks[i].bound;
    }
    if (!bytes)
        return;
    handle->opened->place = length;
    handle->ahead = realloc(bytes, length ? length : 1);
    if (!handle->ahead)
        handle->ahead = bytes;
    handle->ahead_length = length;
    handle->ahead_whole = length < asked;
    handle->ahead_changes = bridge->changes;
    bridge->ahead += length;
}

void ahead_free(struct bridge *bridge, struct handle *handle)
{
    if (!handle->ahead)
        return;
    bridge->ahead -= handle->ahead_length;
    free(handle->ahead);
    handle->ahead = NULL;
}

bool reply_ahead(fuse_req_t request, struct bridge *bridge, struct handle *handle, size_t size,
                 uint64_t offset)
{
    uint64_t length = handle->ahead_length;
    if (!handle->ahead)
        return false;
    bool is_there = offset <= length && (handle->ahead_whole || size <= length - offset);
    if (handle->ahead_changes != bridge->changes || !is_there) {
        ahead_free(bridge, handle);
        return false;
    }
    uint64_t count = size < length - offset ? size : length - offset;
    fuse_reply_buf(request, handle->ahead + offset, count);
    if (!handle->ahead_whole && offset + count == length)
        ahead_free(bridge, handle);
    return true;
}
