/* The overlay mount engine in your own process. Requests and replies are the frames of
 * docs/FORMATS.md: a reply's own status says whether its call was made or refused.
 *
 * What a caller owes. Nothing checks it, and where it is broken nothing holds any more:
 *   - an ovl_mount begins as OVL_NONE, is changed by these functions alone, is never copied, and is
 *     let go by ovl_unmount;
 *   - no pointer is null, also to no bytes; each is good for as much as the length beside it says,
 *     and aligned for its type; no two arguments of one call overlap;
 *   - one call at a time on a mount: with threads, a mutex of yours around each call. A mount may
 *     go from thread to thread, and several mounts need nothing of each other;
 *   - no call from a signal handler, nor in the forked child of a process with threads;
 *   - malloc, realloc and free are those of one allocator, whose blocks are aligned to 16 bytes.
 *
 * Lengths and room are in bytes. Where a text or a frame doesn't fit its room, what fits of it is
 * there, and the length that is told is that of the whole; what is behind it stays.
 */
#ifndef OVERLAYD_H
#define OVERLAYD_H

#include <stddef.h>
#include <stdint.h>

#ifdef __cplusplus
extern "C" {
#endif

/* A mount, or nothing. */
typedef struct { void *at; } ovl_mount;
#define OVL_NONE {NULL}

/* The longest request and the longest reply, with their lengths. */
#define OVL_REQUEST_MOST 70004
#define OVL_REPLY_MOST 65807

/* What came of what was asked. Where it isn't OVL_OK or OVL_UNWRITTEN, nothing that a mount shows
 * was changed; a call that is refused changes nothing, but has its place. */
enum ovl_status {
    OVL_OK = 0,
    OVL_UNWRITTEN = 1,   /* the call was made, but there was no memory for the frame of its reply */
    OVL_NOT_MOUNTED = 2, /* the mount is OVL_NONE */
    OVL_NO_CLIENT = 3,   /* no client of this number is attached */
    OVL_NO_FRAME = 4,    /* the bytes are not the frame of one request */
    OVL_DETACH = 5,      /* the request is op 26, which ovl_detach does */
    OVL_ENDED = 6,       /* 2^62 deeds were done on the mount */
    OVL_NO_MEMORY = 7,
    OVL_FULL = 8,        /* 64 clients are attached */
    OVL_FAULT = 9,       /* the manifest or its blobs are at fault */
    OVL_MOUNTED = 10,    /* there is a mount already */
    OVL_MORE = 11,       /* a step was made, and the call has more of them */
    OVL_NO_JOB = 12,     /* no job of this number is there */
    OVL_REFUSED = 13,    /* refused, by an error number of docs/FORMATS.md */
    OVL_NO_UPPER = 14,   /* the mount has no upper layer */
    OVL_UPPER_FAULT = 15,/* the saved upper is at fault */
    OVL_NO_LAYER = 16    /* the mount has no layer of this number */
};

/* The version of these calls: the major number, and the minor one in the low 16 bits. */
#define OVL_VERSION 0x00010000u
uint32_t ovl_version(void);

/* Mounts what a manifest tells. The bytes of its blobs stand one behind the other, in the order of
 * its key `blobs`, and have these lengths, one for each name there; with none, the pointers may be
 * to anything. Directories hash their names by `keys`, 16 bytes that nobody should be able to guess
 * (getrandom(2)). The mount keeps no history, so that it answers calls without end. OVL_OK;
 * OVL_FAULT, with a text of why in `fault`, as the program tells it; OVL_NO_MEMORY, by which there
 * may be a text too; OVL_MOUNTED, where the mount stays. *length is that of the text, or 0. */
int32_t ovl_mount_manifest(ovl_mount *mount, const uint8_t *manifest, size_t manifest_length,
                           const uint8_t *blobs, size_t blobs_length,
                           const size_t *lengths, size_t count, const uint8_t keys[16],
                           uint8_t *fault, size_t room, size_t *length);

/* The same with a saved upper in the place of the manifest's own: `upper` is the text that ovl_save
 * or the program's --save left (docs/FORMATS.md, A saved upper). As ovl_mount_manifest, and
 * OVL_UPPER_FAULT, with a text in `fault`, where it is `upper` that is at fault. */
int32_t ovl_mount_upper(ovl_mount *mount, const uint8_t *upper, size_t upper_length,
                        const uint8_t *manifest, size_t manifest_length,
                        const uint8_t *blobs, size_t blobs_length,
                        const size_t *lengths, size_t count, const uint8_t keys[16],
                        uint8_t *fault, size_t room, size_t *length);

/* The names of a manifest's blobs, in the order of its key `blobs`: one behind the other, each with
 * a zero byte behind it. *length is that of them all, never more than manifest_length, and *count is
 * how many they are. No file has a name with a zero byte of its own, though a manifest may. OVL_OK;
 * OVL_FAULT, with a text of why in `names`, *length its length and *count 0; OVL_NO_MEMORY, by which
 * there may be such a text, and *count is 0. */
int32_t ovl_blob_names(const uint8_t *manifest, size_t manifest_length, uint8_t *names, size_t room,
                       size_t *length, size_t *count);

/* Ends a mount, if there is one: its clients are gone, and all that it has is freed. */
void ovl_unmount(ovl_mount *mount);

/* Attaches a client: *client is its number. Numbers start at 0, rise and aren't used again. It has
 * the program's hooks (docs/FORMATS.md, Hooks), and takes what they heard by op 25. OVL_OK,
 * OVL_NOT_MOUNTED, OVL_FULL, OVL_ENDED, OVL_NO_MEMORY; *client is left alone but by OVL_OK. */
int32_t ovl_attach(ovl_mount *mount, uint64_t *client);

/* Detaches a client: its watches end, and what it has open is closed. *place is how many deeds were
 * done on the mount before.
 * OVL_OK, OVL_NOT_MOUNTED, OVL_NO_CLIENT, OVL_ENDED; *place is left alone but by OVL_OK. */
int32_t ovl_detach(ovl_mount *mount, uint64_t client, uint64_t *place);

/* Makes the call of a client that one request asks for: its frame, no byte less or more. The frame
 * of the reply goes into `reply`, and *length is how long it is, at most OVL_REPLY_MOST. OVL_OK,
 * OVL_UNWRITTEN, OVL_NOT_MOUNTED, OVL_NO_CLIENT, OVL_NO_FRAME, OVL_DETACH, OVL_ENDED,
 * OVL_NO_MEMORY; but for OVL_OK *length is 0 and `reply` is left alone. */
int32_t ovl_call(ovl_mount *mount, uint64_t client, const uint8_t *request, size_t request_length,
                 uint8_t *reply, size_t room, size_t *length);

/* The frame of the mount's last reply once more, of whichever client's call, as where it didn't
 * fit. *length is 0 where there is none: before the first call, and after OVL_UNWRITTEN. OVL_OK,
 * OVL_NOT_MOUNTED. */
int32_t ovl_reply(ovl_mount *mount, uint8_t *reply, size_t room, size_t *length);

/* The same call in steps, so that a file that has to be copied up first holds nobody up: other
 * calls may come between. ovl_begin takes the request of one call, no step of which is made yet, and *job
 * is its number; numbers start at 0, rise and aren't used again. It ends by its last step, or by
 * ovl_drop. OVL_MORE, where there is a job; OVL_OK, where the path text is refused, with the reply
 * as ovl_call gives it; OVL_UNWRITTEN, OVL_NOT_MOUNTED, OVL_NO_CLIENT, OVL_NO_FRAME, OVL_DETACH,
 * OVL_ENDED (2^62 jobs were begun), OVL_NO_MEMORY. But for OVL_MORE *job is 0, and but for OVL_OK
 * *length is 0 and `reply` is left alone. */
int32_t ovl_begin(ovl_mount *mount, uint64_t client, const uint8_t *request, size_t request_length,
                  uint64_t *job, uint8_t *reply, size_t room, size_t *length);

/* Makes one step of a job: a parent that is made, or a chunk that is counted, of 4,096 bytes or the
 * 256th part of a file of more than 1 MiB, or the call itself. OVL_MORE, where more steps come;
 * OVL_OK, where that was the last, with the reply as ovl_call gives it; OVL_UNWRITTEN, the last
 * too; OVL_NOT_MOUNTED, OVL_NO_JOB, OVL_ENDED; OVL_NO_CLIENT, where its client was detached, and the job
 * is gone. But for OVL_OK *length is 0 and `reply` is left alone. */
int32_t ovl_step(ovl_mount *mount, uint64_t job, uint8_t *reply, size_t room, size_t *length);

/* Gives up a job: nothing that the mount shows changes. OVL_OK, OVL_NOT_MOUNTED, OVL_NO_JOB. */
int32_t ovl_drop(ovl_mount *mount, uint64_t job);

/* Calls `read` of a client without a frame: at most `length` bytes, and at most 65,536, from where
 * the descriptor stands, go into `bytes`; *count is how many they are, 0 at the end of the file.
 * OVL_OK; OVL_REFUSED, by *error; OVL_NOT_MOUNTED, OVL_NO_CLIENT, OVL_ENDED, OVL_NO_MEMORY. But for
 * OVL_OK *count is 0, but for OVL_REFUSED *error is 0, and `bytes` behind *count is left alone. */
int32_t ovl_read(ovl_mount *mount, uint64_t client, uint32_t descriptor, uint8_t *bytes,
                 size_t length, size_t *count, uint8_t *error);

/* Calls `write` of a client without a frame: at most 65,536 of these bytes, and *count is how many
 * were written. OVL_OK; OVL_REFUSED, by *error; OVL_NOT_MOUNTED, OVL_NO_CLIENT, OVL_ENDED,
 * OVL_NO_MEMORY. But for OVL_OK *count is 0, and but for OVL_REFUSED *error is 0. */
int32_t ovl_write(ovl_mount *mount, uint64_t client, uint32_t descriptor, const uint8_t *bytes,
                  size_t length, size_t *count, uint8_t *error);

/* Where what a path shows lies: *layer counts from 0, the upper, which is there also where nothing
 * may be written, and *key is its number there. Two paths that show one object have one place; a
 * copy-up changes it, and below the upper so do two redirects to one directory. It has no place in
 * the history. OVL_OK; OVL_REFUSED, by *error, as `stat` of the path would be; OVL_NOT_MOUNTED,
 * OVL_NO_MEMORY. *layer and *key are left alone but by OVL_OK, and but for OVL_REFUSED *error is 0.
 */
int32_t ovl_place(ovl_mount *mount, const uint8_t *path, size_t path_length, size_t *layer,
                  size_t *key, uint8_t *error);

/* Saves the upper as a manifest of one layer, the very bytes that the program's --save writes; the
 * mount's own manifest goes on with it (docs/FORMATS.md, A saved upper). The mount keeps the text
 * until the next ovl_save or ovl_layer, and ovl_saved gives it. *length is how long it is, and *left_out
 * how many objects no manifest can say, which aren't in it. OVL_OK; OVL_NOT_MOUNTED, OVL_NO_UPPER,
 * OVL_NO_MEMORY: what was saved before stays, and *length and *left_out are 0. */
int32_t ovl_save(ovl_mount *mount, size_t *length, uint64_t *left_out);

/* Lists a layer, line by line as the program's `layer` prints it (docs/FORMATS.md, Lines): 0 is the
 * upper, where there is one, and the lower ones count from 1. The mount keeps the text as that of
 * ovl_save, in its place, and ovl_saved gives it. *length is how long it is. OVL_OK;
 * OVL_NOT_MOUNTED, OVL_NO_LAYER, OVL_NO_MEMORY: what was kept before stays, and *length is 0. */
int32_t ovl_layer(ovl_mount *mount, uint32_t layer, size_t *length);

/* Gives a piece of the text that ovl_save or ovl_layer made last: its bytes from number `at` on, as far as there
 * are any and there is room, go into `text`, and *count is how many they are, 0 where `at` is the
 * length or more. What is behind them stays. OVL_OK; OVL_NOT_MOUNTED, by which *count is 0. */
int32_t ovl_saved(ovl_mount *mount, size_t at, uint8_t *text, size_t room, size_t *count);

#ifdef __cplusplus
}
#endif

#endif
