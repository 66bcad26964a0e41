/* Requests as bytes, and replies judged: their length, status and shape. */
#include "frames.h"

#include <errno.h>
#include <stdlib.h>
#include <string.h>

enum { TEXT_MAX = 65535, MODE_MAX = 07777, STATUS_MADE = 0, STATUS_REFUSED = 1, STATUS_NONE = 2 };

void batch_clear(struct batch *batch)
{
    batch->out_length = batch->in_length = batch->judged = 0;
    batch->count = batch->answered = 0;
    batch->fault = 0;
}

void batch_free(struct batch *batch)
{
    free(batch->out);
    free(batch->in);
    free(batch->asks);
    memset(batch, 0, sizeof *batch);
}

static void *grown(void *old, size_t *room, size_t wanted, size_t size)
{
    size_t next = *room ? *room : 64;
    while (next < wanted) {
        if (next > SIZE_MAX / 2 / size)
            return NULL;
        next *= 2;
    }
    void *new = realloc(old, next * size);
    if (new)
        *room = next;
    return new;
}

/* Requests. */

static void put(struct batch *batch, const void *bytes, size_t count)
{
    if (batch->fault || count == 0)
        return;
    if (batch->out_length + count > batch->out_room) {
        char *out = grown(batch->out, &batch->out_room, batch->out_length + count, 1);
        if (!out) {
            batch->fault = ENOMEM;
            return;
        }
        batch->out = out;
    }
    memcpy(batch->out + batch->out_length, bytes, count);
    batch->out_length += count;
}

static void put_number(struct batch *batch, uint64_t number, unsigned count)
{
    uint8_t bytes[8];
    for (unsigned i = 0; i < count; i++)
        bytes[i] = (uint8_t)(number >> (8 * (count - 1 - i)));
    put(batch, bytes, count);
}

static void put_text(struct batch *batch, const char *text, size_t length)
{
    if (length > TEXT_MAX && !batch->fault)
        batch->fault = ENAMETOOLONG;
    put_number(batch, length, 2);
    put(batch, text, length);
}

static struct ask *begin_frame(struct batch *batch, enum op op)
{
    if (!batch->fault && batch->count == batch->room) {
        struct ask *asks = grown(batch->asks, &batch->room, batch->count + 1, sizeof *asks);
        if (asks)
            batch->asks = asks;
        else
            batch->fault = ENOMEM;
    }
    batch->frame = batch->out_length;
    put_number(batch, 0, 4);
    put_number(batch, op, 1);
    struct ask *ask = batch->fault ? &batch->nowhere : &batch->asks[batch->count];
    memset(ask, 0, sizeof *ask);
    ask->op = op;
    return ask;
}

static size_t end_frame(struct batch *batch)
{
    size_t length = batch->out_length - batch->frame - 4;
    if (!batch->fault && length > FRAME_MAX)
        batch->fault = ENAMETOOLONG;
    if (batch->fault)
        return 0;
    for (unsigned i = 0; i < 4; i++)
        batch->out[batch->frame + i] = (char)(length >> (8 * (3 - i)));
    return batch->count++;
}

size_t ask_path(struct batch *batch, enum op op, const char *path)
{
    struct ask *ask = begin_frame(batch, op);
    ask->changes = op == OP_UNLINK || op == OP_RMDIR;
    put_text(batch, path, strlen(path));
    return end_frame(batch);
}

size_t ask_two(struct batch *batch, enum op op, const char *one, const char *other)
{
    begin_frame(batch, op)->changes = op != OP_GETATTR;
    put_text(batch, one, strlen(one));
    put_text(batch, other, strlen(other));
    return end_frame(batch);
}

size_t ask_mode(struct batch *batch, enum op op, uint32_t mode, const char *path)
{
    begin_frame(batch, op)->changes = true;
    put_number(batch, mode, 4);
    put_text(batch, path, strlen(path));
    return end_frame(batch);
}

size_t ask_chown(struct batch *batch, uint32_t uid, uint32_t gid, const char *path)
{
    begin_frame(batch, OP_CHOWN)->changes = true;
    put_number(batch, uid, 4);
    put_number(batch, gid, 4);
    put_text(batch, path, strlen(path));
    return end_frame(batch);
}

size_t ask_setattr(struct batch *batch, const char *path, const char *name, const char *value,
                   size_t length)
{
    begin_frame(batch, OP_SETATTR)->changes = true;
    put_text(batch, path, strlen(path));
    put_text(batch, name, strlen(name));
    put_text(batch, value, length);
    return end_frame(batch);
}

size_t ask_open(struct batch *batch, unsigned flags, uint32_t mode, const char *path,
                uint32_t expected)
{
    struct ask *ask = begin_frame(batch, OP_OPEN);
    ask->changes = (flags & (OPEN_CREATE | OPEN_EMPTY)) != 0;
    ask->descriptor = expected;
    put_number(batch, flags, 1);
    put_number(batch, mode, 4);
    put_text(batch, path, strlen(path));
    return end_frame(batch);
}

size_t ask_count(struct batch *batch, enum op op, uint32_t descriptor, uint32_t count)
{
    begin_frame(batch, op)->bound = count;
    put_number(batch, descriptor, 4);
    put_number(batch, count, 4);
    return end_frame(batch);
}

size_t ask_write(struct batch *batch, uint32_t descriptor, const char *bytes, uint32_t count)
{
    struct ask *ask = begin_frame(batch, OP_WRITE);
    ask->changes = true;
    ask->bound = count;
    put_number(batch, descriptor, 4);
    put_number(batch, count, 4);
    put(batch, bytes, count);
    return end_frame(batch);
}

size_t ask_seek(struct batch *batch, uint32_t descriptor, uint64_t place)
{
    begin_frame(batch, OP_SEEK)->bound = place;
    put_number(batch, descriptor, 4);
    put_number(batch, place, 8);
    put_number(batch, 0, 1);
    return end_frame(batch);
}

size_t ask_truncate(struct batch *batch, uint32_t descriptor, uint64_t size)
{
    begin_frame(batch, OP_TRUNCATE)->changes = true;
    put_number(batch, descriptor, 4);
    put_number(batch, size, 8);
    return end_frame(batch);
}

size_t ask_descriptor(struct batch *batch, enum op op, uint32_t descriptor)
{
    begin_frame(batch, op)->descriptor = descriptor;
    put_number(batch, descriptor, 4);
    return end_frame(batch);
}

/* Replies. */

struct view {
    const uint8_t *at;
    size_t left;
    bool bad;
};

static const uint8_t *take_bytes(struct view *view, size_t count)
{
    if (count > view->left) {
        view->bad = true;
        view->left = 0;
        return NULL;
    }
    const uint8_t *taken = view->at;
    view->at += count;
    view->left -= count;
    return taken;
}

static uint64_t take(struct view *view, unsigned count)
{
    const uint8_t *bytes = take_bytes(view, count);
    uint64_t number = 0;
    for (unsigned i = 0; bytes && i < count; i++)
        number = number << 8 | bytes[i];
    return number;
}

static bool is_error(uint64_t number)
{
    static const uint8_t known[] = {1, 2, 9, 12, 16, 17, 18, 20, 21, 22, 23, 24, 27, 28, 30, 36,
                                    39, 40, 61, 75, 95};
    return number != 0 && number < 256 && memchr(known, (int)number, sizeof known) != NULL;
}

/* A name of a directory has no slash and leads neither up nor nowhere. */
static bool is_name(const uint8_t *name, size_t length, bool in_directory)
{
    if (!name || length < 1 || length > 255 || memchr(name, 0, length))
        return false;
    if (!in_directory)
        return true;
    bool dots = name[0] == '.' && (length == 1 || (length == 2 && name[1] == '.'));
    return !dots && !memchr(name, '/', length);
}

static void judge_names(struct view *view, bool in_directory, uint64_t most)
{
    uint64_t count = take(view, 2);
    if (in_directory && count > most)
        view->bad = true;
    for (uint64_t i = 0; i < count && !view->bad; i++) {
        size_t length = take(view, 2);
        if (!is_name(take_bytes(view, length), length, in_directory))
            view->bad = true;
    }
}

static void judge_attr(struct view *view)
{
    uint64_t kind = take(view, 1), mode = take(view, 4);
    take(view, 8);
    uint64_t size = take(view, 8);
    take(view, 4);
    if (kind < KIND_DIRECTORY || kind > KIND_LINK || mode > MODE_MAX || size > INT64_MAX)
        view->bad = true;
}

static void judge_text(struct view *view, bool is_target)
{
    size_t length = take(view, 2);
    const uint8_t *text = take_bytes(view, length);
    if (is_target && (length == 0 || length >= PATH_BYTES || !text || memchr(text, 0, length)))
        view->bad = true;
}

static void judge_answer(const struct ask *ask, struct view *view)
{
    uint64_t number;
    switch (ask->op) {
    case OP_STAT: case OP_FSTAT:
        judge_attr(view);
        return;
    case OP_READLINK: case OP_GETATTR:
        judge_text(view, ask->op == OP_READLINK);
        return;
    case OP_LIST: case OP_ATTRS:
        judge_names(view, ask->op == OP_LIST, ask->bound);
        return;
    case OP_READ:
        number = take(view, 4);
        view->bad |= number > ask->bound;
        take_bytes(view, number);
        return;
    case OP_WRITE:
        number = take(view, 4);
        view->bad |= number > ask->bound || (number == 0 && ask->bound > 0);
        return;
    case OP_OPEN:
        view->bad |= take(view, 4) != ask->descriptor;
        return;
    case OP_SEEK:
        view->bad |= take(view, 8) != ask->bound;
        return;
    default:
        return;
    }
}

static bool judge(struct ask *ask, const uint8_t *body, size_t length, size_t at)
{
    struct view view = {body, length, false};
    uint64_t status = take(&view, 1);
    if (status > STATUS_NONE)
        return false;
    if (status != STATUS_NONE)
        take(&view, 8);
    ask->answer = at + (length - view.left);
    ask->length = view.left;
    if (status == STATUS_MADE) {
        judge_answer(ask, &view);
    } else {
        ask->refused = (int)take(&view, 1);
        ask->untaken = status == STATUS_NONE;
        view.bad |= !is_error((uint64_t)ask->refused);
    }
    return !view.bad && view.left == 0;
}

bool batch_room(struct batch *batch, size_t count)
{
    if (batch->in_length + count <= batch->in_room)
        return true;
    uint8_t *in = grown(batch->in, &batch->in_room, batch->in_length + count, 1);
    if (!in)
        return false;
    batch->in = in;
    return true;
}

bool batch_judge(struct batch *batch)
{
    while (batch->in_length - batch->judged >= 4) {
        struct view view = {batch->in + batch->judged, 4, false};
        uint64_t length = take(&view, 4);
        if (length < 1 || length > FRAME_MAX || batch->answered == batch->count)
            return false;
        if (batch->in_length - batch->judged - 4 < length)
            return true;
        size_t at = batch->judged + 4;
        if (!judge(&batch->asks[batch->answered], batch->in + at, length, at))
            return false;
        batch->answered++;
        batch->judged = at + length;
    }
    return true;
}

static struct view view_of(const struct batch *batch, size_t number)
{
    const struct ask *ask = &batch->asks[number];
    return (struct view){batch->in + ask->answer, ask->length, false};
}

struct attr answer_attr(const struct batch *batch, size_t number)
{
    struct view view = view_of(batch, number);
    struct attr attr = {.kind = (enum kind)take(&view, 1)};
    attr.mode = (uint32_t)take(&view, 4);
    attr.uid = (uint32_t)take(&view, 4);
    attr.gid = (uint32_t)take(&view, 4);
    attr.size = take(&view, 8);
    attr.links = (uint32_t)take(&view, 4);
    return attr;
}

const char *answer_text(const struct batch *batch, size_t number, size_t *length)
{
    struct view view = view_of(batch, number);
    *length = take(&view, 2);
    return (const char *)view.at;
}

const char *answer_block(const struct batch *batch, size_t number, size_t *length)
{
    struct view view = view_of(batch, number);
    *length = take(&view, 4);
    return (const char *)view.at;
}

uint32_t answer_number(const struct batch *batch, size_t number)
{
    struct view view = view_of(batch, number);
    return (uint32_t)take(&view, 4);
}

struct names answer_names(const struct batch *batch, size_t number)
{
    struct view view = view_of(batch, number);
    unsigned count = (unsigned)take(&view, 2);
    return (struct names){view.at, count};
}

const char *next_name(struct names *names, size_t *length)
{
    if (names->left == 0)
        return NULL;
    *length = (size_t)names->at[0] << 8 | names->at[1];
    const char *name = (const char *)names->at + 2;
    names->at += 2 + *length;
    names->left--;
    return name;
}
