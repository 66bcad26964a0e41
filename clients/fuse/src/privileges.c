/* What a file may do for who runs it, which goes when somebody else changes its bytes: the bits
   set-user-ID and set-group-ID, and capabilities. */
#include "bridge.h"

#include <errno.h>

#define CAPABILITY OTHER "security.capability"

/* Set-group-ID without the right to run is no such bit. */
uint32_t without_bits(uint32_t mode)
{
    uint32_t group = (mode & S_IXGRP) ? S_ISGID : 0;
    return mode & ~(S_ISUID | group);
}

/* A kernel that doesn't tell has them go with what anybody but root changes. */
bool takes_bits(const struct bridge *bridge)
{
    const struct kernel *kernel = &bridge->kernel;
    return kernel->kills || (!kernel->tells_kills && kernel->caller != 0);
}

/* What the file has now, where others may have given it. */
static int look(struct bridge *bridge, const struct node *node, uint32_t *mode,
                bool *has_capability)
{
    int fault = path_of(node, bridge->path);
    if (!fault)
        fault = ask_any(bridge);
    if (fault)
        return fault;
    size_t stat = ask_path(&bridge->batch, OP_STAT, bridge->path);
    size_t get = ask_two(&bridge->batch, OP_GETATTR, bridge->path, CAPABILITY);
    fault = ask_end(bridge);
    if (!fault)
        fault = refused(bridge, stat);
    if (fault)
        return fault;
    *mode = answer_attr(&bridge->batch, stat).mode;
    *has_capability = !refused(bridge, get);
    return 0;
}

/* Before the bytes change, so that nobody can run what is new with what was allowed before. What
   has no name has its mode here alone. The kernel is told to ask for the mode anew, which it keeps
   and doesn't change by itself where it has told who takes the bits. */
int take_bits(struct bridge *bridge, struct node *node)
{
    bool has_capability = false;
    uint32_t mode = node->attr.mode;
    int fault = 0;
    if (node->attr.kind != KIND_FILE)
        return 0;
    if (node->names && !is_sure(bridge, node))
        fault = look(bridge, node, &mode, &has_capability);
    uint32_t left = without_bits(mode);
    if (fault || (left == mode && !has_capability))
        return fault;
    node->has_mode |= !node->names;
    if (node->names) {
        fault = path_of(node, bridge->path);
        if (!fault)
            fault = ask_any(bridge);
        if (fault)
            return fault;
        size_t change = ask_mode(&bridge->batch, OP_CHMOD, left, bridge->path);
        if (has_capability)
            ask_two(&bridge->batch, OP_DELATTR, bridge->path, CAPABILITY);
        fault = ask_end(bridge);
        for (size_t i = change; !fault && i < bridge->batch.count; i++)
            fault = refused(bridge, i) == ENODATA ? 0 : refused(bridge, i);
    }
    if (fault)
        return fault;
    node->attr.mode = left;
    times_status(bridge, node);
    node_touched(bridge, node);
    fuse_lowlevel_notify_inval_inode(bridge->session, node->number, -1, 0);
    return 0;
}

/* A capability goes with the bytes, whoever changes them, root too. The kernel takes it away before
   it changes bytes that it keeps; else that goes with the requests of the change, of which it is
   one. Mostly there is none, which is no refusal of the change. */
void ask_no_capability(struct bridge *bridge, struct node *node)
{
    char path[PATH_BYTES];
    if (!node->names)
        kept_remove(node, CAPABILITY);
    else if (!is_bare(bridge, node) && path_of(node, path) == 0)
        ask_two(&bridge->batch, OP_DELATTR, path, CAPABILITY);
}
