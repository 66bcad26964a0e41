/* Requests from hexadecimal text, as docs/FORMATS.md shows them, and checks that say where they
 * are. */
#ifndef FRAMES_H
#define FRAMES_H

#include "overlayd.h"

#include <stdio.h>
#include <stdlib.h>
#include <string.h>

struct frame {
    uint8_t bytes[OVL_REQUEST_MOST + 16];
    size_t length;
};

extern unsigned checks, failures;

#define CHECK(what) check((what) != 0, #what, __FILE__, __LINE__)

void check(int holds, const char *what, const char *file, int line);

/* The bytes that hexadecimal digits spell; spaces are passed over. */
struct frame *from_hex(const char *digits);

/* A request by its op and its fields: `b` u8, `u` u32, `q` u64, `t` text. */
struct frame *request_of(int op, const char *fields, ...);

/* Makes a call on a mount, and says whether its reply is these bytes, in hexadecimal. */
int replies(ovl_mount *mount, uint64_t client, struct frame *request, const char *wanted);

/* Mounts a manifest without blobs. */
int32_t mount_text(ovl_mount *mount, const char *manifest);

/* A further number of a sequence that is the same each time. */
uint32_t next_random(void);

#endif
