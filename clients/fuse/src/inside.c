/* The transport in this process: a connection is a client of the engine that runs beside it. */
#include "bridge.h"

#include "manifest.h"

#include <errno.h>
#include <stdio.h>
#include <string.h>
#include <sys/random.h>
#include <unistd.h>

#ifdef WITH_ENGINE

enum { HEAD = 4, FAULT_BYTES = 4096 };

/* A reply in the place of one for which there was no memory: no call was made. */
static const uint8_t NOT_TAKEN[] = {0, 0, 0, 2, 2, ENOMEM};

static int attach(struct bridge *bridge, struct connection *connection)
{
    switch (ovl_attach(&bridge->engine, &connection->client)) {
    case OVL_OK: return 0;
    case OVL_FULL: return ENFILE;
    case OVL_NO_MEMORY: return ENOMEM;
    default: return EIO;
    }
}

static bool is_ready(struct bridge *bridge, struct connection *connection)
{
    (void)bridge;
    (void)connection;
    return true;
}

static size_t length_of(const char *frame)
{
    size_t length = 0;
    for (unsigned i = 0; i < HEAD; i++)
        length = length << 8 | (uint8_t)frame[i];
    return HEAD + length;
}

/* Makes one call. What no memory was found for wasn't made, and is told so. */
static bool call(struct bridge *bridge, const struct connection *connection, const char *frame,
                 size_t length)
{
    struct batch *batch = &bridge->batch;
    size_t told = 0;
    if (!batch_room(batch, OVL_REPLY_MOST))
        return false;
    uint8_t *room = batch->in + batch->in_length;
    int32_t status = ovl_call(&bridge->engine, connection->client, (const uint8_t *)frame, length,
                              room, OVL_REPLY_MOST, &told);
    if (status == OVL_NO_MEMORY) {
        told = sizeof NOT_TAKEN;
        memcpy(room, NOT_TAKEN, told);
    } else if (status != OVL_OK || told > OVL_REPLY_MOST) {
        return false;
    }
    batch->in_length += told;
    return true;
}

static bool exchange(struct bridge *bridge, struct connection *connection)
{
    struct batch *batch = &bridge->batch;
    for (size_t at = 0; at < batch->out_length;) {
        size_t length = length_of(batch->out + at);
        if (!call(bridge, connection, batch->out + at, length))
            return false;
        at += length;
    }
    return batch_judge(batch) && batch->answered == batch->count
        && batch->judged == batch->in_length;
}

static void detach(struct bridge *bridge, struct connection *connection)
{
    uint64_t place;
    ovl_detach(&bridge->engine, connection->client, &place);
}

static int fault_of(int32_t status, uint8_t error)
{
    return status == OVL_OK ? 0 : status == OVL_REFUSED ? error
        : status == OVL_NO_MEMORY ? ENOMEM : EIO;
}

static int read_bytes(struct bridge *bridge, const struct connection *connection,
                      uint32_t descriptor, void *bytes, size_t length, size_t *count)
{
    uint8_t error = 0;
    return fault_of(ovl_read(&bridge->engine, connection->client, descriptor, bytes, length, count,
                             &error), error);
}

static int write_bytes(struct bridge *bridge, const struct connection *connection,
                       uint32_t descriptor, const void *bytes, size_t length, size_t *count)
{
    uint8_t error = 0;
    return fault_of(ovl_write(&bridge->engine, connection->client, descriptor, bytes, length,
                              count, &error), error);
}

static bool place(struct bridge *bridge, const char *path, struct place *place)
{
    uint8_t error = 0;
    return ovl_place(&bridge->engine, (const uint8_t *)path, strlen(path), &place->layer,
                     &place->key, &error) == OVL_OK;
}

const struct transport inside_transport = {
    .open = attach, .ready = is_ready, .exchange = exchange, .drop = detach, .is_near = true,
    .read = read_bytes, .write = write_bytes, .place = place,
};

static int32_t mount_it(ovl_mount *engine, const struct manifest *manifest, uint8_t *fault,
                        size_t *length)
{
    static const uint8_t nothing[1];
    static const size_t none = 0;
    const uint8_t *text = (const uint8_t *)manifest->text;
    const uint8_t *upper = (const uint8_t *)manifest->upper;
    const uint8_t *blobs = manifest->blobs ? (const uint8_t *)manifest->blobs : nothing;
    const size_t *lengths = manifest->lengths ? manifest->lengths : &none;
    uint8_t keys[16];
    if (getrandom(keys, sizeof keys, 0) != sizeof keys)
        return OVL_NO_MEMORY;
    return upper ? ovl_mount_upper(engine, upper, manifest->upper_length, text, manifest->length,
                                   blobs, manifest->blobs_length, lengths, manifest->count, keys,
                                   fault, FAULT_BYTES, length)
        : ovl_mount_manifest(engine, text, manifest->length, blobs, manifest->blobs_length, lengths,
                             manifest->count, keys, fault, FAULT_BYTES, length);
}

static bool mount(struct bridge *bridge, const struct manifest *manifest)
{
    uint8_t fault[FAULT_BYTES];
    size_t length = 0;
    int32_t status = mount_it(&bridge->engine, manifest, fault, &length);
    if (status == OVL_OK)
        return true;
    length = length < sizeof fault ? length : sizeof fault;
    const char *source = bridge->options.source;
    if (status == OVL_FAULT)
        tell(bridge, "%s: %.*s; overlayd-import --check tells all that is wrong with it", source,
             (int)length, (const char *)fault);
    else if (status == OVL_UPPER_FAULT)
        tell(bridge, "%s: %.*s", bridge->options.upper, (int)length, (const char *)fault);
    else
        tell(bridge, "%s: out of memory", source);
    return false;
}

/* The upper to go on with; none where it is saved to that file, which isn't there yet. */
static const char *upper_of(const struct options *options)
{
    bool is_first = options->upper && options->save && strcmp(options->upper, options->save) == 0
        && access(options->upper, F_OK) != 0 && errno == ENOENT;
    return is_first ? NULL : options->upper;
}

bool inside_begin(struct bridge *bridge)
{
    const struct options *options = &bridge->options;
    struct manifest manifest;
    bool is_mounted = manifest_read(options->source, upper_of(options), options->manifest_limit,
                                    &manifest)
        && mount(bridge, &manifest);
    manifest_free(&manifest);
    return is_mounted && saving_begin(bridge);
}

void inside_end(struct bridge *bridge)
{
    ovl_unmount(&bridge->engine);
    if (bridge->saving.directory > 0)
        close(bridge->saving.directory);
}

#else

const struct transport inside_transport = {.is_near = true};

bool inside_begin(struct bridge *bridge)
{
    (void)bridge;
    fputs("overlayd-fuse: --manifest isn't built in: build it anew where out/liboverlayd.a is\n",
          stderr);
    return false;
}

void inside_end(struct bridge *bridge)
{
    (void)bridge;
}

#endif
