/* Saving the upper in the end: to a new file, which takes the name it is saved by once it is whole.
   Nothing that stands there is written to, and no link is followed. */
#include "bridge.h"

#ifdef WITH_ENGINE

#include <errno.h>
#include <fcntl.h>
#include <stdio.h>
#include <stdlib.h>
#include <string.h>
#include <sys/random.h>
#include <unistd.h>

enum { PIECE = 1 << 20 };

/* Only a regular file is replaced, and nothing else that somebody may have put there. */
static int judge_place(int directory, const char *name)
{
    struct stat stat;
    if (fstatat(directory, name, &stat, AT_SYMLINK_NOFOLLOW) != 0)
        return errno == ENOENT ? 0 : errno;
    return S_ISREG(stat.st_mode) ? 0 : EEXIST;
}

static bool cannot_save(const struct bridge *bridge, const char *why)
{
    tell(bridge, "cannot save to %s: %s", bridge->options.save, why);
    return false;
}

static const char *reason_of(int fault)
{
    return fault == EEXIST ? "something else than a regular file is there" : strerror(fault);
}

/* A new file in the directory, of a name that nobody can have guessed. */
static int new_file(int directory, char *name, size_t room)
{
    uint64_t number;
    if (getrandom(&number, sizeof number, 0) != sizeof number)
        return -1;
    snprintf(name, room, ".overlayd-fuse.%016llx", (unsigned long long)number);
    return openat(directory, name, O_WRONLY | O_CREAT | O_EXCL | O_NOFOLLOW | O_CLOEXEC, 0600);
}

static int split(const char *path, int *directory, const char **name)
{
    const char *slash = strrchr(path, '/');
    char *folder = slash ? strndup(path, slash == path ? 1 : (size_t)(slash - path)) : strdup(".");
    *name = slash ? slash + 1 : path;
    *directory = folder ? open(folder, O_RDONLY | O_DIRECTORY | O_CLOEXEC) : -1;
    int fault = folder ? errno : ENOMEM;
    free(folder);
    if (*directory < 0)
        return fault;
    return **name && strcmp(*name, ".") != 0 && strcmp(*name, "..") != 0 ? 0 : EISDIR;
}

/* That a file can be made there is tried, so that it isn't told in the end alone. */
bool saving_begin(struct bridge *bridge)
{
    struct saving *saving = &bridge->saving;
    char new[64];
    saving->directory = -1;
    if (!bridge->options.save)
        return true;
    int fault = split(bridge->options.save, &saving->directory, &saving->name);
    if (!fault)
        fault = judge_place(saving->directory, saving->name);
    if (fault)
        return cannot_save(bridge, reason_of(fault));
    int descriptor = new_file(saving->directory, new, sizeof new);
    if (descriptor < 0)
        return cannot_save(bridge, reason_of(errno));
    close(descriptor);
    unlinkat(saving->directory, new, 0);
    return true;
}

static int write_all(int descriptor, const uint8_t *bytes, size_t count)
{
    while (count > 0) {
        ssize_t put = write(descriptor, bytes, count);
        if (put < 0 && errno != EINTR)
            return errno;
        bytes += put > 0 ? put : 0;
        count -= put > 0 ? (size_t)put : 0;
    }
    return 0;
}

static int put_upper(struct bridge *bridge, int descriptor, size_t length)
{
    uint8_t *piece = malloc(PIECE);
    int fault = piece ? 0 : ENOMEM;
    for (size_t at = 0; !fault && at < length;) {
        size_t got = 0;
        int32_t status = ovl_saved(&bridge->engine, at, piece, PIECE, &got);
        fault = status != OVL_OK || got == 0 ? EIO : write_all(descriptor, piece, got);
        at += got;
    }
    free(piece);
    return fault;
}

/* The whole of it in a directory, by its name; on the disk before it has that. */
static int put_file(struct bridge *bridge, int directory, const char *name, size_t length)
{
    char new[64];
    int descriptor = new_file(directory, new, sizeof new);
    if (descriptor < 0)
        return errno;
    int fault = put_upper(bridge, descriptor, length);
    if (!fault && fsync(descriptor) != 0)
        fault = errno;
    if (close(descriptor) != 0 && !fault)
        fault = errno;
    if (!fault)
        fault = judge_place(directory, name);
    if (!fault && renameat(directory, new, directory, name) != 0)
        fault = errno;
    if (fault)
        unlinkat(directory, new, 0);
    else
        fsync(directory);
    return fault;
}

/* Where it can't be saved by its name, it is kept in a file beside other temporary ones. */
static void put_elsewhere(struct bridge *bridge, size_t length)
{
    static const char place[] = "/var/tmp";
    char new[64];
    int directory = open(place, O_RDONLY | O_DIRECTORY | O_CLOEXEC);
    int descriptor = directory < 0 ? -1 : new_file(directory, new, sizeof new);
    int fault = descriptor < 0 ? errno : put_upper(bridge, descriptor, length);
    if (!fault && fsync(descriptor) != 0)
        fault = errno;
    if (descriptor >= 0)
        close(descriptor);
    if (fault && descriptor >= 0)
        unlinkat(directory, new, 0);
    if (fault)
        tell(bridge, "the upper layer is lost: %s: %s", place, strerror(fault));
    else
        tell(bridge, "the upper layer is in %s/%s", place, new);
    if (directory >= 0)
        close(directory);
}

bool save(struct bridge *bridge)
{
    const struct saving *saving = &bridge->saving;
    size_t length = 0;
    uint64_t left_out = 0;
    if (!bridge->options.save)
        return true;
    switch (ovl_save(&bridge->engine, &length, &left_out)) {
    case OVL_OK: break;
    case OVL_NO_UPPER: return cannot_save(bridge, "the mount has no upper layer");
    default: return cannot_save(bridge, reason_of(ENOMEM));
    }
    int fault = put_file(bridge, saving->directory, saving->name, length);
    if (fault) {
        cannot_save(bridge, reason_of(fault));
        put_elsewhere(bridge, length);
    }
    if (length > bridge->options.manifest_limit)
        tell(bridge, "what was saved has %zu bytes: --upper takes it with --manifest-limit %zu",
             length, length);
    if (left_out)
        tell(bridge, "not saved, since no manifest can say them: %llu objects",
             (unsigned long long)left_out);
    return !fault && !left_out;
}

#else

bool save(struct bridge *bridge)
{
    (void)bridge;
    return true;
}

#endif
