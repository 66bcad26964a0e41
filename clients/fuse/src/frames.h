/* Requests as frames, and replies that are judged. docs/FORMATS.md has the forms. */
#ifndef FRAMES_H
#define FRAMES_H

#include <stdbool.h>
#include <stddef.h>
#include <stdint.h>

enum {
    PIECE_MAX = 65536,  /* bytes of one read or write */
    PATH_BYTES = 4096,  /* a path text and its end */
    NAMES_MAX = 256,    /* names of one list */
    FRAME_MAX = 70000,  /* bytes behind a length */
    DESCRIPTORS = 64,   /* of one connection */
};

enum op {
    OP_STAT = 1, OP_READLINK, OP_CHMOD, OP_CHOWN, OP_SETATTR, OP_GETATTR, OP_DELATTR, OP_ATTRS,
    OP_MKDIR, OP_SYMLINK, OP_OPEN, OP_UNLINK, OP_RMDIR, OP_LINK, OP_RENAME, OP_READ, OP_WRITE,
    OP_SEEK, OP_TRUNCATE, OP_FSTAT, OP_LIST, OP_CLOSE,
};

/* The flags of an open. */
enum {
    OPEN_READ = 0, OPEN_WRITE = 1, OPEN_BOTH = 2,
    OPEN_CREATE = 4, OPEN_NEW = 8, OPEN_EMPTY = 16, OPEN_APPEND = 32, OPEN_DIRECTORY = 64,
};

enum kind { KIND_DIRECTORY = 1, KIND_FILE = 2, KIND_LINK = 3 };

/* What the server tells of an object. */
struct attr {
    enum kind kind;
    uint32_t mode, uid, gid, links;
    uint64_t size;
};

/* A request and, once it was answered, its reply. */
struct ask {
    enum op op;
    bool changes;         /* whether it changes the mount where it is made */
    uint32_t descriptor;  /* of a close; of an open the one that is expected */
    uint64_t bound;       /* of read, write and list the most; of a seek the place */
    int refused;          /* the error number of a refusal, or 0 */
    bool untaken;         /* no call was made of it */
    size_t answer, length;
};

/* Requests that are sent in one go, and their replies. */
struct batch {
    char *out;
    size_t out_length, out_room;
    uint8_t *in;
    size_t in_length, in_room, judged;
    struct ask *asks;
    size_t count, room, answered;
    size_t frame;        /* where the frame begins that is being written */
    struct ask nowhere;  /* takes what is noted once there is a fault */
    int fault;           /* why nothing of it can be sent, or 0 */
};

/* Where the names of a list or of attributes are read. */
struct names {
    const uint8_t *at;
    unsigned left;
};

void batch_clear(struct batch *batch);
void batch_free(struct batch *batch);

/* Each notes a request and gives its number in the batch. */
size_t ask_path(struct batch *batch, enum op op, const char *path);
size_t ask_two(struct batch *batch, enum op op, const char *one, const char *other);
size_t ask_mode(struct batch *batch, enum op op, uint32_t mode, const char *path);
size_t ask_chown(struct batch *batch, uint32_t uid, uint32_t gid, const char *path);
size_t ask_setattr(struct batch *batch, const char *path, const char *name, const char *value,
                   size_t length);
size_t ask_open(struct batch *batch, unsigned flags, uint32_t mode, const char *path,
                uint32_t expected);
size_t ask_count(struct batch *batch, enum op op, uint32_t descriptor, uint32_t count);
size_t ask_write(struct batch *batch, uint32_t descriptor, const char *bytes, uint32_t count);
size_t ask_seek(struct batch *batch, uint32_t descriptor, uint64_t place);
size_t ask_truncate(struct batch *batch, uint32_t descriptor, uint64_t size);
size_t ask_descriptor(struct batch *batch, enum op op, uint32_t descriptor);

/* Room for so many further bytes of replies; whether there is memory for it. */
bool batch_room(struct batch *batch, size_t count);
/* Judges what came, frame by frame; false where it is no answer to what was asked. */
bool batch_judge(struct batch *batch);

/* What was answered, to a request that wasn't refused. */
struct attr answer_attr(const struct batch *batch, size_t number);
const char *answer_text(const struct batch *batch, size_t number, size_t *length);
const char *answer_block(const struct batch *batch, size_t number, size_t *length);
uint32_t answer_number(const struct batch *batch, size_t number);
struct names answer_names(const struct batch *batch, size_t number);
/* The next name, or none. */
const char *next_name(struct names *names, size_t *length);

#endif
