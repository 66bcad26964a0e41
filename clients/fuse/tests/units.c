/* What can't be seen from outside of the bridge: how its names are hashed, that a deep tree of
   names goes without taking the stack, and times as text at their bounds. Prints what is wrong; the
   exit status is 1 then. */
#include "../src/bridge.h"
#include "../src/time_text.h"

#include <inttypes.h>
#include <stdio.h>
#include <stdlib.h>
#include <string.h>

enum { COLLIDING = 3000, SLOTS = 2048, DEPTH = 300000 };

void kept_free(struct kept *kept)
{
    (void)kept;
}

void link_times_free(struct link_times *times)
{
    (void)times;
}

void opened_end(struct bridge *bridge, struct node *node)
{
    (void)bridge;
    (void)node;
}

bool places_begin(struct bridge *bridge)
{
    (void)bridge;
    return true;
}

void places_end(struct bridge *bridge)
{
    (void)bridge;
}

void place_left(struct bridge *bridge, struct node *node)
{
    (void)bridge;
    (void)node;
}

struct node *place_found(struct bridge *bridge, const struct node *parent, const char *name,
                         const struct attr *attr)
{
    (void)parent;
    (void)name;
    (void)attr;
    return node_new(bridge);
}

static int fail(const char *what, size_t number)
{
    printf("%s: %zu\n", what, number);
    return 1;
}

/* The vector of the paper's appendix: key and input are 00 01 02 .. */
static int known_hash(void)
{
    static const uint64_t key[2] = {UINT64_C(0x0706050403020100), UINT64_C(0x0f0e0d0c0b0a0908)};
    static const char text[] = {8, 9, 10, 11, 12, 13, 14};
    uint64_t hash = siphash(key, UINT64_C(0x0706050403020100), text, sizeof text);
    return hash == UINT64_C(0xa129ca6149be45e5) ? 0 : fail("another hash", (size_t)hash);
}

/* A hash without a key, for which names of one slot are soon found. */
static uint64_t plain_hash(const char *text)
{
    uint64_t hash = UINT64_C(14695981039346656037) ^ ROOT;
    for (const char *at = text; *at; at++)
        hash = (hash ^ (unsigned char)*at) * UINT64_C(1099511628211);
    return hash ^ hash >> 32;
}

static size_t longest_chain(const struct nodes *nodes)
{
    size_t longest = 0;
    for (size_t i = 0; i < nodes->name_slots; i++) {
        size_t length = 0;
        for (const struct name *name = nodes->by_name[i]; name; name = name->next)
            length++;
        longest = length > longest ? length : longest;
    }
    return longest;
}

static int colliding_names(struct bridge *bridge)
{
    struct node *root = node_of(bridge, ROOT);
    char text[24];
    unsigned found = 0;
    for (unsigned number = 0; found < COLLIDING; number++) {
        snprintf(text, sizeof text, "n%u", number);
        if (plain_hash(text) % SLOTS != 0)
            continue;
        found++;
        struct node *node = node_new(bridge);
        if (!node || !node_name(bridge, root, text, node) || node_at(bridge, root, text) != node)
            return fail("no name", number);
    }
    size_t longest = longest_chain(&bridge->nodes);
    return longest < 64 ? 0 : fail("names in one slot", longest);
}

static int deep_tree(struct bridge *bridge)
{
    struct node *parent = node_of(bridge, ROOT);
    size_t before = bridge->nodes.node_count;
    for (unsigned i = 0; i < DEPTH; i++) {
        struct node *node = node_new(bridge);
        if (!node || !node_name(bridge, parent, "d", node))
            return fail("no node", i);
        node->attr.kind = KIND_DIRECTORY;
        parent = node;
    }
    node_unname(bridge, node_of(bridge, ROOT), "d");
    return bridge->nodes.node_count == before ? 0
        : fail("nodes are left", bridge->nodes.node_count - before);
}

/* A file with two names in a tree that goes, one of them further down. */
static int two_names(struct bridge *bridge)
{
    struct node *root = node_of(bridge, ROOT);
    size_t before = bridge->nodes.node_count;
    struct node *top = node_new(bridge), *below = node_new(bridge), *file = node_new(bridge);
    bool made = top && below && file && node_name(bridge, root, "top", top)
        && node_name(bridge, top, "below", below) && node_name(bridge, below, "two", file)
        && node_name(bridge, top, "one", file);
    if (!made)
        return fail("no name", 0);
    node_unname(bridge, root, "top");
    return bridge->nodes.node_count == before ? 0 : fail("nodes are left", 3);
}

static const char *after_time(const char *text, struct timespec *time)
{
    return take_time(text, text + strlen(text), time);
}

/* A time is written as printf(3) does it, and read back. */
static int times_as_text(void)
{
    static const struct timespec times[] = {{0, 0}, {0, 999999999}, {-1, 1}, {1700000000, 12345678},
                                            {INT64_MAX, 5}, {INT64_MIN, 999999999}};
    char text[TIME_BYTES + 1], wanted[64];
    for (size_t i = 0; i < sizeof times / sizeof *times; i++) {
        struct timespec found = {7, 7};
        *put_time(text, &times[i]) = 0;
        snprintf(wanted, sizeof wanted, "%" PRId64 ".%09ld", (int64_t)times[i].tv_sec,
                 times[i].tv_nsec);
        const char *end = after_time(text, &found);
        if (strcmp(text, wanted) != 0 || end != text + strlen(text)
            || found.tv_sec != times[i].tv_sec || found.tv_nsec != times[i].tv_nsec)
            return fail("another time", i);
    }
    return 0;
}

static int no_times(void)
{
    static const char *const texts[] = {
        "", "-", ".", "1", "1.", "1.00000000", ".000000000", "-.000000000", "+1.000000000",
        " 1.000000000", "1 .000000000", "1.00000000x", "1.-00000000", "--1.000000000",
        "9223372036854775808.000000000", "-9223372036854775809.000000000",
        "00000000000000000001.000000000", "18446744073709551616.000000000"};
    struct timespec time;
    for (size_t i = 0; i < sizeof texts / sizeof *texts; i++)
        if (after_time(texts[i], &time))
            return fail("no time", i);
    return 0;
}

static int numbers_as_text(void)
{
    static const char most[] = "18446744073709551615", over[] = "18446744073709551616",
                      longer[] = "000000000000000000000";
    char text[NUMBER_BYTES];
    uint64_t number = 0;
    bool is_written = put_number(text, UINT64_MAX) == text + NUMBER_BYTES
        && memcmp(text, most, NUMBER_BYTES) == 0 && put_number(text, 0) == text + 1 && *text == '0';
    bool is_read = take_number(most, most + NUMBER_BYTES, &number) == most + NUMBER_BYTES
        && number == UINT64_MAX && !take_number(over, over + NUMBER_BYTES, &number)
        && !take_number(longer, longer + NUMBER_BYTES + 1, &number)
        && !take_number(most, most, &number);
    return is_written && is_read ? 0 : fail("another number", is_written);
}

int main(void)
{
    static struct bridge bridge;
    if (!nodes_begin(&bridge))
        return fail("no nodes", 0);
    int status = known_hash() | colliding_names(&bridge) | deep_tree(&bridge)
        | two_names(&bridge) | times_as_text() | no_times() | numbers_as_text();
    nodes_end(&bridge);
    return status;
}
