/* The engine as a C library: every function, each status, and calls that must change nothing. What
 * is wanted is that of docs/FORMATS.md. */
#include "frames.h"
#include "tests.h"

#define EMPTY "layer = [{}, {}]"
#define KEYS ((const uint8_t *)"not to be known")
#define STAT_ROOT "00000004 01 0001 2f"
#define ROOT "01 000001ed 00000000 00000000 0000000000000000 00000001"

static const char absent_file[] =
    "layer = [{}, { entry = [{ path = \"/f\", kind = \"file\", text = \"hello\" }] }]";

static int32_t told_fault(const char *manifest, const char *blobs, const size_t *lengths,
                          size_t count, char *text, size_t room)
{
    ovl_mount mount = OVL_NONE;
    size_t length = 0;
    memset(text, 0, room);
    int32_t status = ovl_mount_manifest(&mount, (const uint8_t *)manifest, strlen(manifest),
                                        (const uint8_t *)blobs, strlen(blobs), lengths, count, KEYS,
                                        (uint8_t *)text, room, &length);
    CHECK(status == OVL_OK || mount.at == NULL);
    CHECK(status == OVL_FAULT ? length > 0 : length == 0);
    ovl_unmount(&mount);
    CHECK(mount.at == NULL);
    return status;
}

/* The examples of docs/FORMATS.md, with its places. */
static void first_example(void)
{
    ovl_mount mount = OVL_NONE;
    uint64_t client = 99, place = 99;
    CHECK(mount_text(&mount, EMPTY) == OVL_OK);
    CHECK(ovl_attach(&mount, &client) == OVL_OK && client == 0);
    CHECK(replies(&mount, 0, from_hex(STAT_ROOT), "00000022 00 0000000000000001" ROOT));
    CHECK(replies(&mount, 0, from_hex("00000009 09 000001ed 0002 2f61"),
                  "00000009 00 0000000000000002"));
    CHECK(replies(&mount, 0, from_hex("00000005 01 0002 2f78"), "0000000a 01 0000000000000003 02"));
    CHECK(replies(&mount, 0, from_hex("00000004 01 0001 78"), "00000002 02 16"));
    CHECK(ovl_detach(&mount, 0, &place) == OVL_OK && place == 4);
    CHECK(ovl_detach(&mount, 0, &place) == OVL_NO_CLIENT && place == 4);
    ovl_unmount(&mount);
}

/* Two clients in turn, one of whom watches. */
static void second_example(void)
{
    ovl_mount mount = OVL_NONE;
    uint64_t a = 99, b = 99, place = 99;
    CHECK(mount_text(&mount, "layer = [{}, { entry = [{ path = \"/f\", kind = \"file\" }] }]") ==
          OVL_OK);
    CHECK(ovl_attach(&mount, &a) == OVL_OK && a == 0);
    CHECK(replies(&mount, a, from_hex("0000000a 17 00 00000018 0002 2f66"),
                  "0000000d 00 0000000000000001 00000001"));
    CHECK(ovl_attach(&mount, &b) == OVL_OK && b == 1);
    CHECK(replies(&mount, b, from_hex("0000000a 0b 00 000001a4 0002 2f66"),
                  "0000000d 00 0000000000000003 00000000"));
    CHECK(ovl_detach(&mount, b, &place) == OVL_OK && place == 4);
    CHECK(replies(&mount, a, from_hex("00000005 19 00000009"),
                  "00000019 00 0000000000000005 0001 00000001 00000010 00000000 0000"));
    ovl_unmount(&mount);
}

/* Where nothing is mounted, everything is refused, and stays so. */
static void nothing_mounted(void)
{
    ovl_mount mount = OVL_NONE;
    uint64_t number = 77;
    uint8_t reply[4] = "abc";
    size_t length = 5;
    struct frame *stat = from_hex(STAT_ROOT);
    ovl_unmount(&mount);
    CHECK(ovl_attach(&mount, &number) == OVL_NOT_MOUNTED && number == 77);
    CHECK(ovl_detach(&mount, 0, &number) == OVL_NOT_MOUNTED && number == 77);
    CHECK(ovl_call(&mount, 0, stat->bytes, stat->length, reply, 4, &length) == OVL_NOT_MOUNTED);
    CHECK(length == 0 && memcmp(reply, "abc", 4) == 0);
    CHECK(ovl_reply(&mount, reply, 4, &length) == OVL_NOT_MOUNTED && length == 0);
    CHECK(memcmp(reply, "abc", 4) == 0 && mount.at == NULL);
    CHECK(ovl_version() == OVL_VERSION);
}

/* Bytes that are no request of an attached client are answered by a status, and have no place. */
static void refused_frames(void)
{
    static const char *const none[] = {"",
                                       "00",
                                       "000000",
                                       "00000004 01 0001",
                                       "00000000",
                                       "00011171",
                                       "00000001 1b",
                                       "00000005 01 0001 2f 00",
                                       "00000004 01 0002 2f",
                                       STAT_ROOT "00",
                                       STAT_ROOT STAT_ROOT};
    ovl_mount mount = OVL_NONE;
    uint64_t client;
    uint8_t reply[64] = "left alone";
    size_t length;
    CHECK(mount_text(&mount, EMPTY) == OVL_OK && ovl_attach(&mount, &client) == OVL_OK);
    for (size_t i = 0; i < sizeof none / sizeof *none; i++) {
        struct frame *frame = from_hex(none[i]);
        length = 9;
        CHECK(ovl_call(&mount, client, frame->bytes, frame->length, reply, 64, &length) ==
              OVL_NO_FRAME);
        CHECK(length == 0 && memcmp(reply, "left alone", 11) == 0);
    }
    struct frame *detach = from_hex("00000001 1a");
    CHECK(ovl_call(&mount, client, detach->bytes, detach->length, reply, 64, &length) ==
          OVL_DETACH);
    struct frame *stat = from_hex(STAT_ROOT);
    CHECK(ovl_call(&mount, client + 1, stat->bytes, stat->length, reply, 64, &length) ==
          OVL_NO_CLIENT);
    CHECK(length == 0 && memcmp(reply, "left alone", 11) == 0);
    CHECK(replies(&mount, client, from_hex(STAT_ROOT), "00000022 00 0000000000000001" ROOT));
    ovl_unmount(&mount);
}

/* A reply that doesn't fit is told whole, and had once more. */
static void small_room(void)
{
    ovl_mount mount = OVL_NONE;
    uint64_t client;
    uint8_t reply[64];
    size_t length = 0;
    struct frame stat = *from_hex(STAT_ROOT);
    CHECK(mount_text(&mount, EMPTY) == OVL_OK && ovl_attach(&mount, &client) == OVL_OK);
    CHECK(ovl_reply(&mount, reply, 64, &length) == OVL_OK && length == 0);
    memset(reply, 0xee, 64);
    CHECK(ovl_call(&mount, client, stat.bytes, stat.length, reply, 5, &length) == OVL_OK &&
          length == 38);
    CHECK(memcmp(reply, from_hex("00000022 00 ee")->bytes, 6) == 0);
    CHECK(ovl_call(&mount, client, stat.bytes, stat.length, reply, 0, &length) == OVL_OK &&
          length == 38);
    CHECK(ovl_reply(&mount, reply, 64, &length) == OVL_OK && length == 38);
    CHECK(memcmp(reply, from_hex("00000022 00 0000000000000002" ROOT "eeee")->bytes, 40) == 0);
    CHECK(mount_text(&mount, EMPTY) == OVL_MOUNTED);
    CHECK(replies(&mount, client, &stat, "00000022 00 0000000000000003" ROOT));
    ovl_unmount(&mount);
}

/* At most 64 clients, whose numbers rise; a place that is free is another's. */
static void many_clients(void)
{
    ovl_mount mount = OVL_NONE;
    uint64_t client, place;
    CHECK(mount_text(&mount, EMPTY) == OVL_OK);
    for (uint64_t wanted = 0; wanted < 64; wanted++)
        CHECK(ovl_attach(&mount, &client) == OVL_OK && client == wanted);
    CHECK(ovl_attach(&mount, &client) == OVL_FULL && client == 63);
    CHECK(ovl_detach(&mount, 17, &place) == OVL_OK && place == 64);
    CHECK(ovl_attach(&mount, &client) == OVL_OK && client == 64);
    CHECK(ovl_attach(&mount, &client) == OVL_FULL);
    ovl_unmount(&mount);
}

/* Faults are told as the program tells them. */
static void faults(void)
{
    static const struct {
        const char *manifest, *fault;
    } rows[] = {
        {"", "manifest: layers"},
        {"layer", "manifest: not TOML"},
        {"layer = [{}, {}]\nfoo = 1", "manifest: key"},
        {"layer = [{}, {}]\nhistory = 1", "manifest: history"},
        {"layer = [{}, {}]\nmetacopy = \"on\"", "manifest: metacopy"},
        {"layer = [{}, { entry = [{ path = \"/f\", kind = \"fifo\" }] }]", "layer 1 entry 0: kind"},
    };
    char text[64];
    for (size_t i = 0; i < sizeof rows / sizeof *rows; i++) {
        CHECK(told_fault(rows[i].manifest, "", (size_t[1]){0}, 0, text, 64) == OVL_FAULT);
        CHECK(strcmp(text, rows[i].fault) == 0);
    }
    CHECK(told_fault(rows[0].manifest, "", (size_t[1]){0}, 0, text, 5) == OVL_FAULT);
    CHECK(memcmp(text, "manif", 5) == 0);
    CHECK(told_fault(EMPTY, "", (size_t[1]){0}, 0, text, 64) == OVL_OK && text[0] == 0);
}

/* Files whose bytes are parts of blobs. */
static void blobs(void)
{
    static const char manifest[] =
        "blobs = [\"a\", \"b\"]\n"
        "layer = [{}, { entry = ["
        "{ path = \"/a\", kind = \"file\", blob = 0, at = 1, size = 2 },"
        "{ path = \"/b\", kind = \"file\", blob = 1 }] }]";
    static const uint8_t bytes[] = "abcxyz";
    ovl_mount mount = OVL_NONE;
    uint64_t client;
    char text[64];
    size_t length;
    CHECK(ovl_mount_manifest(&mount, (const uint8_t *)manifest, strlen(manifest), bytes, 6,
                             (size_t[2]){3, 3}, 2, KEYS, (uint8_t *)text, 64, &length) == OVL_OK);
    CHECK(ovl_attach(&mount, &client) == OVL_OK);
    CHECK(replies(&mount, client, request_of(11, "but", 0, 0, "/a"),
                  "0000000d 00 0000000000000001 00000000"));
    CHECK(replies(&mount, client, request_of(16, "uu", 0, 9),
                  "0000000f 00 0000000000000002 00000002 6263"));
    CHECK(replies(&mount, client, request_of(11, "but", 0, 0, "/b"),
                  "0000000d 00 0000000000000003 00000001"));
    CHECK(replies(&mount, client, request_of(16, "uu", 1, 9),
                  "00000010 00 0000000000000004 00000003 78797a"));
    ovl_unmount(&mount);
    CHECK(told_fault(manifest, "abcxyz", (size_t[2]){3, 4}, 2, text, 64) == OVL_FAULT);
    CHECK(strcmp(text, "cannot read blob 1") == 0);
    CHECK(told_fault(manifest, "abcxyz", (size_t[2]){3, 2}, 2, text, 64) == OVL_FAULT);
    CHECK(told_fault(manifest, "abcxyz", (size_t[2]){(size_t)-1, 7}, 2, text, 64) == OVL_FAULT);
    CHECK(strcmp(text, "cannot read blob 0") == 0);
    CHECK(told_fault(manifest, "abc", (size_t[1]){3}, 1, text, 64) == OVL_FAULT);
    CHECK(strcmp(text, "cannot read blob 1") == 0);
    CHECK(told_fault(manifest, "abcxyz", (size_t[3]){3, 2, 1}, 3, text, 64) == OVL_FAULT);
    CHECK(strcmp(text, "cannot read blob 2") == 0);
    CHECK(told_fault(manifest, "ab", (size_t[2]){2, 0}, 2, text, 64) == OVL_FAULT);
    CHECK(strcmp(text, "layer 1 entry 0: value") == 0);
}

/* Bytes that nobody meant: each is a status, and the mount shows what it showed. */
static void hostile_frames(long rounds)
{
    static uint8_t reply[OVL_REPLY_MOST];
    ovl_mount mount = OVL_NONE;
    uint64_t client;
    uint8_t bytes[64];
    CHECK(mount_text(&mount, absent_file) == OVL_OK && ovl_attach(&mount, &client) == OVL_OK);
    for (long i = 0; i < rounds; i++) {
        size_t count = next_random() % 40, length = 1;
        for (size_t at = 0; at < count; at++)
            bytes[at] = (uint8_t)next_random();
        if (i % 2 && count >= 5) {
            memcpy(bytes, "\0\0\0", 3);
            bytes[3] = (uint8_t)(count - 4);
            bytes[4] = (uint8_t)(next_random() % 28);
        }
        int32_t status = ovl_call(&mount, client, bytes, count, reply, sizeof reply, &length);
        if (status != OVL_OK && status != OVL_NO_FRAME && status != OVL_DETACH)
            CHECK(!"a status of no frame");
        if (status == OVL_OK ? length < 6 || length > sizeof reply : length != 0)
            CHECK(!"a length of a reply");
    }
    CHECK(ovl_call(&mount, client, request_of(1, "t", "/f")->bytes, 9, reply, 64, &(size_t){0}) ==
          OVL_OK);
    CHECK(reply[4] == 0 && reply[13] == 2);
    ovl_unmount(&mount);
}

void embedding(long frames)
{
    first_example();
    second_example();
    nothing_mounted();
    refused_frames();
    small_room();
    many_clients();
    faults();
    blobs();
    hostile_frames(frames);
}
