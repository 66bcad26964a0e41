/* The engine in a program's own process: from a manifest to a changed layer, by frames.
 *
 *   make lib && cc -Iclients/c/include -o out/embed examples/embed.c out/liboverlayd.a
 *   out/embed examples/change-layer.toml
 */
#include "overlayd.h"

#include <stdio.h>
#include <stdlib.h>
#include <string.h>
#include <sys/random.h>

static uint8_t request[OVL_REQUEST_MOST], reply[OVL_REPLY_MOST], manifest[1 << 20], fault[200];

/* Makes a call: an op, some bytes of fields, and a path text behind them. Its error number, or 0.
 * */
static int call(ovl_mount *mount, uint64_t client, int op, const char *fields, size_t count,
                const char *path)
{
    size_t text = strlen(path), body = 1 + count + 2 + text, length = 0;
    for (int i = 0; i < 4; i++)
        request[i] = (uint8_t)(body >> (24 - 8 * i));
    request[4] = (uint8_t)op;
    memcpy(request + 5, fields, count);
    request[5 + count] = (uint8_t)(text >> 8);
    request[6 + count] = (uint8_t)text;
    memcpy(request + 7 + count, path, text);
    int32_t status = ovl_call(mount, client, request, 4 + body, reply, sizeof reply, &length);
    if (status != OVL_OK) {
        fprintf(stderr, "embed: no reply: %d\n", (int)status);
        exit(1);
    }
    return reply[4] ? reply[length - 1] : 0;
}

int main(int argc, char **argv)
{
    FILE *file = argc == 2 ? fopen(argv[1], "rb") : NULL;
    size_t size = file ? fread(manifest, 1, sizeof manifest, file) : 0, length = 0, none = 0;
    uint8_t keys[16], nothing = 0;
    ovl_mount mount = OVL_NONE;
    uint64_t client = 0, left_out = 0;
    if (!file || size == sizeof manifest || getrandom(keys, sizeof keys, 0) != sizeof keys) {
        fprintf(stderr, "usage: embed MANIFEST, of less than 1 MiB and without blobs\n");
        return 2;
    }
    if (ovl_mount_manifest(&mount, manifest, size, &nothing, 0, &none, 0, keys, fault, sizeof fault,
                           &length) != OVL_OK ||
        ovl_attach(&mount, &client) != OVL_OK) {
        fprintf(stderr, "embed: %.*s\n", (int)length, (char *)fault);
        return 1;
    }
    printf("mkdir /new: %d\n", call(&mount, client, 9, "\0\0\1\355", 4, "/new"));
    printf("stat /new: %d\n", call(&mount, client, 1, "", 0, "/new"));
    printf("its mode is %o\n", reply[16] << 8 | reply[17]);
    printf("mkdir /new: %d, which is EEXIST\n", call(&mount, client, 9, "\0\0\1\355", 4, "/new"));
    if (ovl_save(&mount, &length, &left_out) != OVL_OK)
        return 1;
    for (size_t at = 0; at < length; at += size) {
        ovl_saved(&mount, at, reply, sizeof reply, &size);
        fwrite(reply, 1, size, stdout);
    }
    ovl_unmount(&mount);
    return fclose(file) != 0;
}
