/* Owners: which id of the engine is shown as which id of this machine. */
#include "bridge.h"

#include <stdlib.h>
#include <string.h>

/* Shown for what has no id here. No user has it; within a user namespace it is `nobody`. */
static const uint32_t NOBODY = UINT32_MAX - 1;

static bool take_number(const char **at, char end, uint32_t *number)
{
    char *stop;
    if (**at < '0' || **at > '9')
        return false;
    unsigned long long value = strtoull(*at, &stop, 10);
    if (*stop != end || value >= UINT32_MAX)
        return false;
    *number = (uint32_t)value;
    *at = stop + 1;
    return true;
}

static bool meet(uint32_t one, uint32_t other, uint32_t count, uint32_t others)
{
    return one < (uint64_t)other + others && other < (uint64_t)one + count;
}

/* INNER:OUTER:COUNT; no id may be in two ranges. */
bool ids_add(struct ids *ids, const char *text)
{
    struct range range;
    if (ids->count == RANGES_MAX || !take_number(&text, ':', &range.inner)
        || !take_number(&text, ':', &range.outer) || !take_number(&text, 0, &range.count))
        return false;
    if (range.count == 0 || (uint64_t)range.inner + range.count > UINT32_MAX
        || (uint64_t)range.outer + range.count > UINT32_MAX)
        return false;
    for (unsigned i = 0; i < ids->count; i++) {
        const struct range *other = &ids->ranges[i];
        if (meet(range.inner, other->inner, range.count, other->count)
            || meet(range.outer, other->outer, range.count, other->count))
            return false;
    }
    ids->ranges[ids->count++] = range;
    return true;
}

uint32_t shown_id(const struct ids *ids, uint32_t inner)
{
    if (ids->squash)
        return ids->shown;
    for (unsigned i = 0; i < ids->count; i++)
        if (inner - ids->ranges[i].inner < ids->ranges[i].count)
            return ids->ranges[i].outer + (inner - ids->ranges[i].inner);
    return ids->count ? NOBODY : inner;
}

/* False where the engine has no id for it. */
bool inner_id(const struct ids *ids, uint32_t outer, uint32_t *inner)
{
    *inner = ids->squash ? 0 : outer;
    if (ids->squash || ids->count == 0)
        return true;
    for (unsigned i = 0; i < ids->count; i++)
        if (outer - ids->ranges[i].outer < ids->ranges[i].count) {
            *inner = ids->ranges[i].inner + (outer - ids->ranges[i].outer);
            return true;
        }
    return false;
}
