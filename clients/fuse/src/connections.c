/* Connections to the server, and batches of requests that go over them. */
#include "bridge.h"

#include <errno.h>
#include <stdio.h>
#include <string.h>

enum {
    FIRST_WAIT = 5,         /* seconds in which a session must be served at the beginning */
    FURTHER_WAIT = 2,       /* and where a further one is needed */
    AGAIN = 10,             /* seconds until the next is tried where one wasn't served */
    HELD = DESCRIPTORS - 1, /* of a connection, but for one for listings, cuts and reopening */
};

int64_t milliseconds(void)
{
    struct timespec time;
    clock_gettime(CLOCK_MONOTONIC_COARSE, &time);
    return (int64_t)time.tv_sec * 1000 + time.tv_nsec / 1000000;
}

void connection_drop(struct bridge *bridge, struct connection *connection)
{
    if (!connection->is_open)
        return;
    bridge->transport->drop(bridge, connection);
    connection->is_open = false;
    connection->used = connection->closing = 0;
    connection->generation++;
    bridge->epoch++;
}

static int open_anew(struct bridge *bridge, struct connection *connection)
{
    int fault = bridge->transport->open(bridge, connection);
    connection->is_open = connection->is_fresh = fault == 0;
    connection->is_served = false;
    return fault;
}

/* Whether it stands; if not, it is made anew. */
static bool is_ready(struct bridge *bridge, struct connection *connection)
{
    if (connection->is_open && bridge->transport->ready(bridge, connection))
        return true;
    connection_drop(bridge, connection);
    return open_anew(bridge, connection) == 0;
}

/* Batches. */

int ask_on(struct bridge *bridge, struct connection *connection)
{
    if (!is_ready(bridge, connection))
        return EIO;
    bridge->asked = connection;
    batch_clear(&bridge->batch);
    connection->expected = connection->used;
    for (uint32_t i = 0; i < DESCRIPTORS; i++)
        if (connection->closing >> i & 1)
            ask_closing(bridge, i);
    return 0;
}

int ask_any(struct bridge *bridge)
{
    return ask_on(bridge, &bridge->connections[0]);
}

/* Whether the server serves it: its first request is answered. */
static bool is_served(struct bridge *bridge, struct connection *connection)
{
    if (ask_on(bridge, connection) != 0)
        return false;
    size_t root = ask_path(&bridge->batch, OP_STAT, "/");
    return ask_end(bridge) == 0 && !refused(bridge, root);
}

/* One connection more. A server without a free worker isn't asked for one all the time. */
static bool attach_further(struct bridge *bridge)
{
    time_t second = (time_t)(milliseconds() / 1000);
    if (bridge->attached == bridge->options.max_sessions || second < bridge->next_attach)
        return false;
    struct connection *connection = &bridge->connections[bridge->attached];
    unsigned wait = bridge->wait, epoch = bridge->epoch;
    bridge->wait = wait < FURTHER_WAIT ? wait : FURTHER_WAIT;
    bool served = is_served(bridge, connection);
    bridge->wait = wait;
    if (served) {
        bridge->attached++;
        return true;
    }
    connection_drop(bridge, connection);
    bridge->epoch = epoch;  /* nothing that was known came by it */
    bridge->next_attach = second + AGAIN;
    return false;
}

static unsigned open_on(const struct connection *connection)
{
    return (unsigned)__builtin_popcountll(connection->used & ~connection->closing);
}

/* Whether the user holds less than three quarters of what there is; root may have all. */
static bool has_share(const struct bridge *bridge, uint32_t user)
{
    unsigned held = 0;
    for (unsigned i = 0; user != 0 && i < bridge->attached; i++) {
        const struct connection *one = &bridge->connections[i];
        for (uint64_t left = one->used & ~one->closing; left; left &= left - 1)
            held += one->users[__builtin_ctzll(left)] == user;
    }
    return held < bridge->attached * HELD * 3 / 4;
}

/* The one with the fewest open files of those that stay, or else the first with room. */
static struct connection *roomiest(struct bridge *bridge, unsigned room)
{
    struct connection *found = NULL;
    for (unsigned i = 0; i < bridge->attached; i++) {
        struct connection *one = &bridge->connections[i];
        bool is_further = i >= bridge->options.sessions;
        if (open_on(one) < (found ? open_on(found) : room) && !(found && is_further))
            found = one;
    }
    return found;
}

int ask_for_open(struct bridge *bridge)
{
    struct connection *found = NULL;
    do
        found = has_share(bridge, bridge->kernel.caller) ? roomiest(bridge, HELD) : NULL;
    while (!found && attach_further(bridge));
    return found ? ask_on(bridge, found) : ENFILE;
}

int ask_for_moment(struct bridge *bridge)
{
    struct connection *found = roomiest(bridge, DESCRIPTORS);
    return found ? ask_on(bridge, found) : ENFILE;
}

size_t ask_opening(struct bridge *bridge, unsigned flags, uint32_t mode, const char *path,
                   uint32_t *descriptor)
{
    uint64_t free = ~bridge->asked->expected;
    if (free == 0) {
        if (!bridge->batch.fault)
            bridge->batch.fault = ENFILE;
        *descriptor = 0;
        return 0;
    }
    *descriptor = (uint32_t)__builtin_ctzll(free);
    bridge->asked->expected |= UINT64_C(1) << *descriptor;
    bridge->asked->users[*descriptor] = bridge->kernel.caller;
    return ask_open(&bridge->batch, flags, mode, path, *descriptor);
}

void ask_closing(struct bridge *bridge, uint32_t descriptor)
{
    bridge->asked->expected &= ~(UINT64_C(1) << descriptor);
    ask_descriptor(&bridge->batch, OP_CLOSE, descriptor);
}

/* A full history never gets free again, and nobody sees it by the number of the refusal. */
static void tell_full(struct bridge *bridge)
{
    if (!bridge->told_full)
        tell(bridge, "%s: the server's history is full, and each call is refused from now on; "
             "overlayd-export tells how to keep what was changed; serve with --no-history",
             bridge->options.source);
    bridge->told_full = true;
}

/* A server that turns a client away says so by its first reply, and is gone then. */
static bool is_turned_away(const struct bridge *bridge)
{
    const struct batch *batch = &bridge->batch;
    return !bridge->asked->is_served && batch->answered > 0 && batch->asks[0].untaken
        && batch->asks[0].refused == EBUSY;
}

/* At the beginning it is told otherwise. */
static void tell_no_worker(struct bridge *bridge)
{
    if (!bridge->no_worker && bridge->attached >= bridge->options.sessions)
        tell(bridge, "%s: the server has no free worker", bridge->options.source);
    bridge->no_worker = true;
}

/* Which descriptors are open now, and whether something was changed. */
static void account(struct bridge *bridge)
{
    struct connection *connection = bridge->asked;
    for (size_t i = 0; i < bridge->batch.count; i++) {
        const struct ask *ask = &bridge->batch.asks[i];
        if (ask->untaken && ask->refused == ENOSPC)
            tell_full(bridge);
        if (ask->refused)
            continue;
        if (ask->op == OP_OPEN)
            connection->used |= UINT64_C(1) << ask->descriptor;
        if (ask->op == OP_CLOSE)
            connection->used &= ~(UINT64_C(1) << ask->descriptor);
        if (ask->changes)
            bridge->changes++;
    }
    connection->closing = 0;
    if (!connection->is_served)
        bridge->no_worker = false;
    connection->is_fresh = connection->is_served = true;
}

int ask_end(struct bridge *bridge)
{
    if (bridge->batch.fault)
        return bridge->batch.fault;
    if (bridge->batch.count == 0)
        return 0;
    bridge->trips++;
    bridge->frames += bridge->batch.count;
    bool is_right = bridge->transport->exchange(bridge, bridge->asked);
    if (is_turned_away(bridge)) {
        tell_no_worker(bridge);
        is_right = false;
    }
    if (!is_right) {
        connection_drop(bridge, bridge->asked);
        return EIO;
    }
    account(bridge);
    return 0;
}

int refused(const struct bridge *bridge, size_t number)
{
    return bridge->batch.asks[number].refused;
}

/* The beginning: each session must be served, which a server with few workers can't. */

bool connections_begin(struct bridge *bridge)
{
    unsigned wanted = bridge->options.sessions;
    bridge->wait = bridge->options.wait < FIRST_WAIT ? bridge->options.wait : FIRST_WAIT;
    int fault = open_anew(bridge, &bridge->connections[0]);
    if (fault) {
        fprintf(stderr, "overlayd-fuse: %s: %s\n", bridge->options.source, strerror(fault));
        return false;
    }
    while (bridge->attached < wanted
           && is_served(bridge, &bridge->connections[bridge->attached]))
        bridge->attached++;
    bridge->wait = bridge->options.wait;
    if (bridge->attached == wanted)
        return true;
    fprintf(stderr, "overlayd-fuse: the server answers %u of %u sessions%s: serve with more "
            "--workers, or mount with fewer --sessions\n", bridge->attached, wanted,
            bridge->no_worker ? ", and has no free worker" : "");
    return false;
}

/* A path text that is refused, as it has no slash, takes no place in the server's history. */
static void ask_nothing(struct bridge *bridge, struct connection *connection)
{
    uint64_t trips = bridge->trips, frames = bridge->frames;
    if (ask_on(bridge, connection) != 0)
        return;
    ask_path(&bridge->batch, OP_STAT, "x");
    ask_end(bridge);
    bridge->trips = trips;
    bridge->frames = frames;
}

/* Ends those of the further ones that nobody needs any more, the last ones first. */
static void detach_idle(struct bridge *bridge)
{
    while (bridge->attached > bridge->options.sessions) {
        struct connection *last = &bridge->connections[bridge->attached - 1];
        if (open_on(last) > 0)
            return;
        unsigned epoch = bridge->epoch;
        connection_drop(bridge, last);
        bridge->epoch = epoch;
        bridge->attached--;
    }
}

void connections_care(struct bridge *bridge)
{
    for (unsigned i = 0; i < bridge->attached; i++) {
        struct connection *one = &bridge->connections[i];
        if (one->is_open && (!one->is_fresh || one->closing))
            ask_nothing(bridge, one);
        one->is_fresh = false;
    }
    detach_idle(bridge);
}

void connections_end(struct bridge *bridge)
{
    for (unsigned i = 0; i < SESSIONS_MAX; i++)
        connection_drop(bridge, &bridge->connections[i]);
    batch_free(&bridge->batch);
}
