#include "frames.h"

#include <stdarg.h>

unsigned checks, failures;
static struct frame made, spelled;

void check(int holds, const char *what, const char *file, int line)
{
    checks++;
    if (!holds) {
        failures++;
        printf("%s:%d: %s\n", file, line, what);
    }
}

static int digit_of(char c)
{
    const char *digits = "0123456789abcdef";
    const char *at = c ? strchr(digits, c) : NULL;
    return at ? (int)(at - digits) : -1;
}

struct frame *from_hex(const char *digits)
{
    spelled.length = 0;
    for (int high = -1; *digits; digits++) {
        int digit = digit_of(*digits);
        if (digit < 0)
            continue;
        if (high < 0) {
            high = digit;
        } else {
            spelled.bytes[spelled.length++] = (uint8_t)(high << 4 | digit);
            high = -1;
        }
    }
    return &spelled;
}

static void put(uint64_t number, int bytes)
{
    while (bytes--)
        made.bytes[made.length++] = (uint8_t)(number >> (8 * bytes));
}

static void put_text(const char *text)
{
    size_t length = strlen(text);
    put(length, 2);
    memcpy(made.bytes + made.length, text, length);
    made.length += length;
}

struct frame *request_of(int op, const char *fields, ...)
{
    va_list rest;
    made.length = 4;
    put((uint64_t)op, 1);
    va_start(rest, fields);
    for (; *fields; fields++) {
        switch (*fields) {
        case 'b': put(va_arg(rest, unsigned), 1); break;
        case 'u': put(va_arg(rest, unsigned), 4); break;
        case 'q': put(va_arg(rest, uint64_t), 8); break;
        case 't': put_text(va_arg(rest, const char *)); break;
        }
    }
    va_end(rest);
    size_t length = made.length;
    made.length = 0;
    put(length - 4, 4);
    made.length = length;
    return &made;
}

int replies(ovl_mount *mount, uint64_t client, struct frame *request, const char *wanted)
{
    static uint8_t reply[OVL_REPLY_MOST];
    size_t length = 12345;
    int32_t status =
        ovl_call(mount, client, request->bytes, request->length, reply, sizeof reply, &length);
    struct frame *bytes = from_hex(wanted);
    if (status == OVL_OK && length == bytes->length && memcmp(reply, bytes->bytes, length) == 0)
        return 1;
    printf("status %d, reply of %zu bytes: ", status, length);
    for (size_t i = 0; status == OVL_OK && i < length && i < 64; i++)
        printf("%02x", reply[i]);
    printf("\n");
    return 0;
}

int32_t mount_text(ovl_mount *mount, const char *manifest)
{
    static const uint8_t keys[16] = "not to be known";
    uint8_t nothing = 0, fault[200];
    size_t none = 0, length = 0;
    return ovl_mount_manifest(mount, (const uint8_t *)manifest, strlen(manifest), &nothing, 0,
                              &none, 0, keys, fault, sizeof fault, &length);
}

uint32_t next_random(void)
{
    static uint64_t state = 88172645463325252u;
    state ^= state << 13;
    state ^= state >> 7;
    state ^= state << 17;
    return (uint32_t)(state >> 16);
}
