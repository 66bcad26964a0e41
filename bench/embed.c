/* Nanoseconds of one call on a mount in this process, the least of five rounds.
 *
 *   make lib && cc -O2 -D_DEFAULT_SOURCE -Iclients/c/include -o out/bench-embed bench/embed.c \
 *       out/liboverlayd.a && out/bench-embed
 *
 * Two layers; the path has four names, all in the lower one. What it is held against is
 * `overlay_bench`, which makes the same calls without frames.
 */
#include "overlayd.h"

#include <stdio.h>
#include <stdlib.h>
#include <string.h>
#include <time.h>

#define ROUNDS 5

static const char layers[] =
    "layer = [{}, { entry = [{ path = \"/a\", kind = \"dir\" }, { path = \"/a/b\", kind = \"dir\" },"
    "{ path = \"/a/b/c\", kind = \"dir\" }, { path = \"/a/b/c/d\", kind = \"file\", text = \"x\" },"
    "{ path = \"/64k\", kind = \"file\", zeros = 65536 }] }]";

static ovl_mount mount = OVL_NONE;
static uint64_t client;
static uint8_t reply[OVL_REPLY_MOST], bytes[65536], other[65536];
static size_t length;

static void stop(const char *what)
{
    fprintf(stderr, "bench-embed: %s\n", what);
    exit(1);
}

/* A request by its op, its fields and a path text, where there is one. Its length. */
static size_t request(uint8_t *frame, int op, const char *fields, size_t count, const char *path)
{
    size_t text = path ? strlen(path) : 0, size = 1 + count + (path ? 2 + text : 0);
    for (int i = 0; i < 4; i++)
        frame[i] = (uint8_t)(size >> (24 - 8 * i));
    frame[4] = (uint8_t)op;
    memcpy(frame + 5, fields, count);
    if (path) {
        frame[5 + count] = (uint8_t)(text >> 8);
        frame[6 + count] = (uint8_t)text;
        memcpy(frame + 7 + count, path, text);
    }
    return 4 + size;
}

static void call(const uint8_t *frame, size_t size)
{
    if (ovl_call(&mount, client, frame, size, reply, sizeof reply, &length) != OVL_OK || reply[4])
        stop("a call was refused");
}

static uint8_t stat_frame[64], write_frame[4200], to_start[32], read_frame[32];
static size_t stat_size, write_size, to_start_size, read_size;

static void stat_path(void) { call(stat_frame, stat_size); }

static void write_4k(void)
{
    call(to_start, to_start_size);
    call(write_frame, write_size);
}

static void seek(void) { call(to_start, to_start_size); }

static void read_64k_framed(void)
{
    call(to_start, to_start_size);
    call(read_frame, read_size);
}

static void read_64k(void)
{
    uint8_t error;
    call(to_start, to_start_size);
    if (ovl_read(&mount, client, 0, bytes, sizeof bytes, &length, &error) != OVL_OK ||
        length != sizeof bytes)
        stop("a read was refused");
}

static void copy_64k(void)
{
    memcpy(other, bytes, sizeof other);
    __asm__ volatile("" : : "r"(other) : "memory");
}

static double least(void (*deed)(void), int count)
{
    double best = 1e18;
    for (int round = 0; round < ROUNDS; round++) {
        struct timespec from, to;
        clock_gettime(CLOCK_PROCESS_CPUTIME_ID, &from);
        for (int i = 0; i < count; i++)
            deed();
        clock_gettime(CLOCK_PROCESS_CPUTIME_ID, &to);
        double took = (double)(to.tv_sec - from.tv_sec) * 1e9 + (double)(to.tv_nsec - from.tv_nsec);
        best = took / count < best ? took / count : best;
    }
    return best;
}

int main(void)
{
    static const uint8_t keys[16] = "of a benchmark";
    size_t none = 0;
    uint8_t open_frame[64];
    if (ovl_mount_manifest(&mount, (const uint8_t *)layers, strlen(layers), bytes, 0, &none, 0, keys,
                           reply, sizeof reply, &length) != OVL_OK ||
        ovl_attach(&mount, &client) != OVL_OK)
        stop("no mount");
    stat_size = request(stat_frame, 1, "", 0, "/a/b/c/d");
    write_size = request(write_frame, 17, "\0\0\0\0\0\0\x10\0", 8, NULL) + 4096;
    write_frame[2] = 0x10;
    write_frame[3] = 9;
    to_start_size = request(to_start, 18, "\0\0\0\0\0\0\0\0\0\0\0\0\0", 13, NULL);
    read_size = request(read_frame, 16, "\0\0\0\0\0\1\0", 8, NULL);
    call(open_frame, request(open_frame, 11, "\2\0\0\0", 5, "/64k"));
    double seeks = least(seek, 200000);
    printf("stat of four names           %8.0f ns\n", least(stat_path, 200000));
    printf("write of 4 KiB by a frame    %8.0f ns\n", least(write_4k, 50000) - seeks);
    printf("read of 64 KiB by a frame    %8.0f ns\n", least(read_64k_framed, 20000) - seeks);
    printf("read of 64 KiB without one   %8.0f ns\n", least(read_64k, 20000) - seeks);
    printf("memcpy of 64 KiB             %8.0f ns\n", least(copy_64k, 20000));
    ovl_unmount(&mount);
    return 0;
}
