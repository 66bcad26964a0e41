/* Memory: what a mount in this process takes, what statfs tells of it, and the bound of --size.

   How much the allocator has given is counted anew only where what was asked for since then may
   have come near the bound. What is removed may always be; what was written by a map in memory is
   taken, as its file has that size already. */
#include "bridge.h"

#include <errno.h>
#include <malloc.h>
#include <stdio.h>
#include <string.h>

enum { BLOCK = 4096 };

/* A checked build's allocator tells by itself how much it has given. */
size_t __sanitizer_get_current_allocated_bytes(void) __attribute__((weak));

static uint64_t taken(void)
{
    if (__sanitizer_get_current_allocated_bytes)
        return __sanitizer_get_current_allocated_bytes();
    struct mallinfo2 info = mallinfo2();
    return (uint64_t)info.uordblks + info.hblkhd;
}

static uint64_t grown(const struct bridge *bridge)
{
    uint64_t now = taken();
    return now > bridge->space.first ? now - bridge->space.first : 0;
}

void space_begin(struct bridge *bridge)
{
    bridge->space.first = taken();
    bridge->space.spare = 0;
}

int space_for(struct bridge *bridge, uint64_t bytes)
{
    struct space *space = &bridge->space;
    uint64_t size = bridge->options.size;
    if (size == 0)
        return 0;
    bytes += SPACE_OBJECT;
    if (bytes <= space->spare) {
        space->spare -= bytes;
        return 0;
    }
    uint64_t used = grown(bridge);
    space->spare = 0;
    if (used > size || bytes > size - used)
        return ENOSPC;
    space->spare = (size - used - bytes) / 4;
    return 0;
}

int space_for_bytes(struct bridge *bridge, const struct node *node, uint64_t size)
{
    bool is_upper = node->written || (node->has_place && node->place.layer == 0);
    uint64_t has = is_upper ? node->attr.size : 0;
    return size > has ? space_for(bridge, size - has) : 0;
}

/* What the machine could give still, in bytes; 0 where that isn't told. */
static uint64_t available(void)
{
    char line[128];
    unsigned long long found = 0;
    FILE *file = fopen("/proc/meminfo", "re");
    while (file && fgets(line, sizeof line, file))
        if (sscanf(line, "MemAvailable: %llu kB", &found) == 1)
            break;
    if (file)
        fclose(file);
    return (uint64_t)found * 1024;
}

/* A server doesn't tell, so large numbers stand for it, for whoever asks before it writes. */
void space_told(const struct bridge *bridge, struct statvfs *stat)
{
    const uint64_t large = UINT64_C(1) << 40;
    uint64_t size = bridge->options.size, used = 0, left = large;
    if (bridge->options.inside) {
        used = size ? grown(bridge) : taken();
        left = size ? (size > used ? size - used : 0) : available();
    }
    memset(stat, 0, sizeof *stat);
    stat->f_bsize = stat->f_frsize = BLOCK;
    stat->f_namemax = 255;
    stat->f_bfree = stat->f_bavail = left / BLOCK;
    stat->f_blocks = size ? size / BLOCK : (used + BLOCK - 1) / BLOCK + left / BLOCK;
    stat->f_files = stat->f_ffree = stat->f_favail = 1 << 28;
}
