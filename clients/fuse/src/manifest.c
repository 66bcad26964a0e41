/* Reading a manifest, the files that it names, and the upper with which a mount goes on. */
#include "manifest.h"

#ifdef WITH_ENGINE

#include <overlayd.h>

#include <errno.h>
#include <fcntl.h>
#include <stdio.h>
#include <stdlib.h>
#include <string.h>
#include <unistd.h>

enum { FRESH = 1 << 16 };

static bool tell(const char *what, const char *name, const char *why)
{
    fprintf(stderr, "overlayd-fuse: %s%s: %s\n", what, name, why);
    return false;
}

static const char *reason_of(int fault)
{
    return fault == EFBIG ? "File too large; --manifest-limit says how large it may be"
        : strerror(fault);
}

/* Bytes that grow as they are read. */
struct bytes {
    char *at;
    size_t length, room;
};

static bool has_room(struct bytes *bytes)
{
    if (bytes->room - bytes->length > FRESH)
        return true;
    size_t room = bytes->room ? bytes->room * 2 : 4 * (size_t)FRESH;
    char *at = realloc(bytes->at, room);
    if (!at)
        return false;
    bytes->at = at;
    bytes->room = room;
    return true;
}

/* All that stands there; an error number where it can't be read, or has more than `limit` bytes. */
static int read_all(int folder, const char *name, uint64_t limit, struct bytes *bytes)
{
    size_t first = bytes->length;
    int descriptor = openat(folder, name, O_RDONLY | O_CLOEXEC | O_NOCTTY), fault = 0;
    if (descriptor < 0)
        return errno;
    for (ssize_t got = 1; got > 0 && !fault;) {
        if (!has_room(bytes)) {
            fault = ENOMEM;
            break;
        }
        got = read(descriptor, bytes->at + bytes->length, bytes->room - bytes->length);
        if (got < 0 && errno == EINTR)
            got = 1;
        else if (got < 0)
            fault = errno;
        else
            bytes->length += (size_t)got;
        if (bytes->length - first > limit)
            fault = EFBIG;
    }
    close(descriptor);
    return fault;
}

static bool read_text(const char *path, uint64_t limit, char **text, size_t *length)
{
    struct bytes bytes = {NULL, 0, 0};
    int fault = read_all(AT_FDCWD, path, limit, &bytes);
    *text = bytes.at;
    *length = bytes.length;
    return !fault || tell("", path, reason_of(fault));
}

static bool add_blob(struct manifest *manifest, size_t length)
{
    size_t *lengths = realloc(manifest->lengths, (manifest->count + 1) * sizeof *lengths);
    if (!lengths)
        return false;
    manifest->lengths = lengths;
    lengths[manifest->count++] = length;
    return true;
}

static bool read_blob(int folder, const char *name, uint64_t limit, struct manifest *manifest,
                      struct bytes *bytes)
{
    char what[64];
    size_t before = bytes->length;
    snprintf(what, sizeof what, "cannot read blob %zu: ", manifest->count);
    int fault = limit < before ? EFBIG : read_all(folder, name, limit - before, bytes);
    if (!fault && !add_blob(manifest, bytes->length - before))
        fault = ENOMEM;
    return !fault || tell(what, name, reason_of(fault));
}

/* The names have a NUL behind each; one that has more of them is no file's. */
static bool read_named(int folder, const char *names, size_t length, size_t count, uint64_t limit,
                       struct manifest *manifest)
{
    struct bytes bytes = {NULL, 0, 0};
    const char *name = names;
    bool is_read = true;
    while (is_read && name < names + length) {
        is_read = manifest->count < count
            ? read_blob(folder, name, limit - manifest->length, manifest, &bytes)
            : tell("", name, "a blob's name with a zero byte");
        name += strlen(name) + 1;
    }
    manifest->blobs = bytes.at;
    manifest->blobs_length = bytes.length;
    return is_read;
}

/* What is at fault of the manifest is told when it is mounted. */
static bool read_blobs(int folder, const char *path, uint64_t limit, struct manifest *manifest)
{
    size_t length = 0, count = 0, room = manifest->length + 1;
    char *names = malloc(room);
    int32_t status = names ? ovl_blob_names((const uint8_t *)manifest->text, manifest->length,
                                            (uint8_t *)names, room, &length, &count)
        : OVL_NO_MEMORY;
    bool is_read = status == OVL_FAULT
        || (status == OVL_OK && length <= manifest->length
            ? read_named(folder, names, length, count, limit, manifest)
            : tell("", path, strerror(ENOMEM)));
    free(names);
    return is_read;
}

/* The directory from which the names of blobs count. */
static int folder_of(const char *path)
{
    const char *slash = strrchr(path, '/');
    char *folder = slash ? strndup(path, slash == path ? 1 : (size_t)(slash - path)) : strdup(".");
    int descriptor = folder ? open(folder, O_PATH | O_DIRECTORY | O_CLOEXEC) : -1;
    free(folder);
    return descriptor;
}

bool manifest_read(const char *path, const char *upper, uint64_t limit,
                   struct manifest *manifest)
{
    *manifest = (struct manifest){.text = NULL};
    if (!read_text(path, limit, &manifest->text, &manifest->length))
        return false;
    int folder = folder_of(path);
    bool is_read = folder >= 0 ? read_blobs(folder, path, limit, manifest)
        : tell("", path, strerror(errno));
    if (folder >= 0)
        close(folder);
    return is_read
        && (!upper || read_text(upper, limit, &manifest->upper, &manifest->upper_length));
}

void manifest_free(struct manifest *manifest)
{
    free(manifest->text);
    free(manifest->upper);
    free(manifest->blobs);
    free(manifest->lengths);
}

#endif
