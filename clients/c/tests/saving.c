/* The upper as a manifest: what was saved, with the lower layers, is the same mount again. */
#include "frames.h"
#include "tests.h"

#define ROOM (1 << 20)

/* The lower layer of both mounts, behind an upper's own table. */
static const char lower[] =
    "\n[[layer]]\n"
    "[[layer.entry]]\npath = \"/d\"\nkind = \"dir\"\n"
    "[[layer.entry]]\npath = \"/d/f\"\nkind = \"file\"\ntext = \"hello\"\n"
    "[[layer.entry]]\npath = \"/gone\"\nkind = \"file\"\n";

static uint8_t text[ROOM], again[ROOM], manifest[ROOM];

/* Saves, and takes the text in pieces of so many bytes; its length. */
static size_t save(ovl_mount *mount, uint8_t *room, size_t piece, uint64_t *left_out)
{
    size_t length = 77, count = 77, at = 0;
    *left_out = 77;
    CHECK(ovl_save(mount, &length, left_out) == OVL_OK && length < ROOM);
    while (at < length) {
        room[at + piece < ROOM ? at + piece : ROOM - 1] = 0xee;
        CHECK(ovl_saved(mount, at, room + at, piece, &count) == OVL_OK);
        CHECK(count == (length - at < piece ? length - at : piece));
        CHECK(at + piece >= ROOM || room[at + piece] == 0xee);
        if (count == 0)
            return 0;
        at += count;
    }
    CHECK(ovl_saved(mount, length, room, piece, &count) == OVL_OK && count == 0);
    CHECK(ovl_saved(mount, (size_t)-1, room, piece, &count) == OVL_OK && count == 0);
    return length;
}

static int32_t mount_over(ovl_mount *mount, const uint8_t *upper, size_t length)
{
    memcpy(manifest, upper, length);
    memcpy(manifest + length, lower, sizeof lower);
    return mount_text(mount, (const char *)manifest);
}

/* A call's answer without its place in the history, as it differs; its length. */
static size_t answer(ovl_mount *mount, uint64_t client, struct frame *request, uint8_t *reply)
{
    size_t length = 0;
    CHECK(ovl_call(mount, client, request->bytes, request->length, reply, OVL_REPLY_MOST, &length)
          == OVL_OK && length >= 13);
    memset(reply + 5, 0, 8);
    return length;
}

static void same_answers(ovl_mount *a, ovl_mount *b, int op, const char *fields, const char *path,
                         const char *name)
{
    static uint8_t left[OVL_REPLY_MOST], right[OVL_REPLY_MOST];
    size_t length = answer(a, 0, request_of(op, fields, path, name), left);
    CHECK(answer(b, 0, request_of(op, fields, path, name), right) == length);
    CHECK(memcmp(left, right, length) == 0);
}

/* The bytes of a file, or the names of a directory, which each mount opens as its descriptor 0. */
static void same_contents(ovl_mount *a, ovl_mount *b, const char *path, int is_directory)
{
    static uint8_t left[OVL_REPLY_MOST], right[OVL_REPLY_MOST];
    ovl_mount *mounts[] = {a, b};
    size_t lengths[2];
    for (int i = 0; i < 2; i++) {
        uint8_t *reply = i ? right : left;
        answer(mounts[i], 0, request_of(11, "but", is_directory ? 64 : 0, 0, path), reply);
        CHECK(reply[4] == 0);
        lengths[i] = answer(mounts[i], 0, request_of(is_directory ? 21 : 16, "uu", 0, 256), reply);
        answer(mounts[i], 0, request_of(22, "u", 0), again);
    }
    CHECK(lengths[0] == lengths[1] && memcmp(left, right, lengths[0]) == 0);
}

/* Changes of each kind: a directory, a file of text and one of bytes, a copy, links, a whiteout. */
static void change(ovl_mount *mount)
{
    uint8_t reply[OVL_REPLY_MOST], error;
    size_t count;
    CHECK(answer(mount, 0, request_of(9, "ut", 0750, "/new"), reply) == 13 && reply[4] == 0);
    CHECK(answer(mount, 0, request_of(4, "uut", 7, 8, "/new"), reply) == 13 && reply[4] == 0);
    CHECK(answer(mount, 0, request_of(11, "but", 5, 0644, "/new/bytes"), reply) == 17);
    CHECK(ovl_write(mount, 0, 0, (const uint8_t *)"\0\1\xff", 3, &count, &error) == OVL_OK);
    CHECK(answer(mount, 0, request_of(22, "u", 0), reply) == 13 && reply[4] == 0);
    CHECK(answer(mount, 0, request_of(11, "but", 5, 0600, "/text"), reply) == 17);
    CHECK(ovl_write(mount, 0, 0, (const uint8_t *)"a b", 3, &count, &error) == OVL_OK);
    CHECK(answer(mount, 0, request_of(22, "u", 0), reply) == 13 && reply[4] == 0);
    CHECK(answer(mount, 0, request_of(5, "ttt", "/text", "user.x", "y"), reply) == 13);
    CHECK(answer(mount, 0, request_of(14, "tt", "/text", "/zlink"), reply) == 13 && reply[4] == 0);
    CHECK(answer(mount, 0, request_of(3, "ut", 0640, "/d/f"), reply) == 13 && reply[4] == 0);
    CHECK(answer(mount, 0, request_of(10, "tt", "/d/f", "/sym"), reply) == 13 && reply[4] == 0);
    CHECK(answer(mount, 0, request_of(12, "t", "/gone"), reply) == 13 && reply[4] == 0);
}

/* What of these changes docs/FORMATS.md says that a manifest tells. */
static const char wanted[] =
    "[[layer]]\n"
    "\n[[layer.entry]]\npath = \"/d\"\nkind = \"dir\"\n"
    "\n[[layer.entry]]\npath = \"/d/f\"\nkind = \"file\"\nmode = 0o640\ntext = \"hello\"\n"
    "\n[[layer.entry]]\npath = \"/gone\"\nkind = \"whiteout\"\n"
    "\n[[layer.entry]]\npath = \"/new\"\nkind = \"dir\"\nmode = 0o750\nuid = 7\ngid = 8\n"
    "\n[[layer.entry]]\npath = \"/new/bytes\"\nkind = \"file\"\nhex = \"0001ff\"\n"
    "\n[[layer.entry]]\npath = \"/sym\"\nkind = \"symlink\"\ntarget = \"/d/f\"\n"
    "\n[[layer.entry]]\npath = \"/text\"\nkind = \"file\"\nmode = 0o600\n"
    "attrs = [[\"user.x\", \"y\"]]\n"
    "text = \"a b\"\n"
    "\n[[layer.entry]]\npath = \"/zlink\"\nkind = \"link\"\nto = \"/text\"\n";

static void saved_and_mounted_again(void)
{
    static const char *const paths[] = {"/", "/d", "/d/f", "/gone", "/new", "/new/bytes",
                                        "/sym", "/text", "/zlink", "/x"};
    ovl_mount first = OVL_NONE, second = OVL_NONE;
    uint64_t client, left_out;
    CHECK(mount_over(&first, (const uint8_t *)"[[layer]]\n", 10) == OVL_OK);
    CHECK(save(&first, text, ROOM, &left_out) == 10 && memcmp(text, "[[layer]]\n", 10) == 0);
    CHECK(ovl_attach(&first, &client) == OVL_OK && client == 0);
    change(&first);
    size_t length = save(&first, text, 7, &left_out);
    CHECK(length == sizeof wanted - 1 && left_out == 0 && memcmp(text, wanted, length) == 0);
    CHECK(mount_over(&second, text, length) == OVL_OK);
    CHECK(ovl_attach(&second, &client) == OVL_OK && client == 0);
    CHECK(save(&second, again, ROOM, &left_out) == length && memcmp(text, again, length) == 0);
    for (size_t i = 0; i < sizeof paths / sizeof *paths; i++) {
        same_answers(&first, &second, 1, "t", paths[i], "");
        same_answers(&first, &second, 2, "t", paths[i], "");
        same_answers(&first, &second, 8, "t", paths[i], "");
        same_answers(&first, &second, 6, "tt", paths[i], "user.x");
    }
    same_contents(&first, &second, "/", 1);
    same_contents(&first, &second, "/d", 1);
    same_contents(&first, &second, "/new", 1);
    same_contents(&first, &second, "/d/f", 0);
    same_contents(&first, &second, "/new/bytes", 0);
    same_contents(&first, &second, "/zlink", 0);
    ovl_unmount(&first);
    ovl_unmount(&second);
}

/* A reply and a job stay where a save comes between, and the text where a call does. */
static void between_calls(void)
{
    ovl_mount mount = OVL_NONE;
    uint64_t client, job, left_out;
    uint8_t reply[64], room[16] = {0};
    size_t length, count;
    CHECK(mount_over(&mount, (const uint8_t *)"[[layer]]\n", 10) == OVL_OK);
    CHECK(ovl_attach(&mount, &client) == OVL_OK);
    struct frame *request = request_of(3, "ut", 0600, "/d/f");
    CHECK(ovl_begin(&mount, client, request->bytes, request->length, &job, reply, 64, &length) ==
          OVL_MORE);
    CHECK(replies(&mount, client, request_of(9, "ut", 0755, "/a"), "00000009 00 0000000000000001"));
    CHECK(ovl_save(&mount, &length, &left_out) == OVL_OK && length > 10);
    CHECK(ovl_reply(&mount, reply, 64, &count) == OVL_OK && count == 13);
    while (ovl_step(&mount, job, reply, 64, &count) == OVL_MORE)
        ;
    CHECK(count == 13 && reply[4] == 0);
    CHECK(replies(&mount, client, request_of(13, "t", "/a"), "00000009 00 0000000000000003"));
    CHECK(ovl_saved(&mount, length - 13, room, sizeof room, &count) == OVL_OK && count == 13);
    CHECK(memcmp(room, "kind = \"dir\"\n\0\0", 15) == 0);
    CHECK(ovl_saved(&mount, 0, room, 0, &count) == OVL_OK && count == 0);
    ovl_unmount(&mount);
}

/* Without a mount, without an upper, and before anything was saved. */
static void nothing_to_save(void)
{
    ovl_mount mount = OVL_NONE;
    uint8_t room[4] = "abc";
    size_t length = 9, count = 9;
    uint64_t left_out = 9;
    CHECK(ovl_save(&mount, &length, &left_out) == OVL_NOT_MOUNTED && length == 0 && left_out == 0);
    CHECK(ovl_saved(&mount, 0, room, 4, &count) == OVL_NOT_MOUNTED && count == 0);
    CHECK(mount_text(&mount, "upper = false\nlayer = [{}, {}]") == OVL_OK);
    length = left_out = count = 9;
    CHECK(ovl_save(&mount, &length, &left_out) == OVL_NO_UPPER && length == 0 && left_out == 0);
    CHECK(ovl_saved(&mount, 0, room, 4, &count) == OVL_OK && count == 0);
    CHECK(memcmp(room, "abc", 4) == 0);
    ovl_unmount(&mount);
}

/* What no manifest can say is left out, with what is in it, and told. */
static void left_out_of_it(void)
{
    ovl_mount mount = OVL_NONE;
    uint64_t client, left_out;
    uint8_t reply[OVL_REPLY_MOST];
    CHECK(mount_over(&mount, (const uint8_t *)"[[layer]]\n", 10) == OVL_OK);
    CHECK(ovl_attach(&mount, &client) == OVL_OK);
    CHECK(answer(&mount, 0, request_of(9, "ut", 0755, "/\xff"), reply) == 13 && reply[4] == 0);
    CHECK(answer(&mount, 0, request_of(9, "ut", 0755, "/\xff/in"), reply) == 13 && reply[4] == 0);
    CHECK(answer(&mount, 0, request_of(9, "ut", 0755, "/a"), reply) == 13 && reply[4] == 0);
    size_t length = save(&mount, text, ROOM, &left_out);
    static const char saved[] =
        "[[layer]]\n\n[[layer.entry]]\npath = \"/a\"\nkind = \"dir\"\n";
    CHECK(left_out == 1 && length == sizeof saved - 1 && memcmp(text, saved, length) == 0);
    ovl_unmount(&mount);
}

/* A layer line by line, as docs/FORMATS.md says. */
static void is_listed(ovl_mount *mount, uint32_t layer, const char *lines)
{
    size_t length = 77, count = 77;
    CHECK(ovl_layer(mount, layer, &length) == OVL_OK && length == strlen(lines));
    CHECK(ovl_saved(mount, 0, text, ROOM, &count) == OVL_OK && count == length);
    CHECK(memcmp(text, lines, length) == 0);
}

static void layers_line_by_line(void)
{
    ovl_mount mount = OVL_NONE;
    uint64_t client, left_out;
    size_t length = 9, count = 9;
    CHECK(ovl_layer(&mount, 0, &length) == OVL_NOT_MOUNTED && length == 0);
    CHECK(mount_over(&mount, (const uint8_t *)"[[layer]]\n", 10) == OVL_OK);
    CHECK(ovl_attach(&mount, &client) == OVL_OK);
    is_listed(&mount, 0, "d 0755 0 0 0 1 /\n");
    change(&mount);
    is_listed(&mount, 0,
              "d 0755 0 0 0 1 /\n"
              "d 0755 0 0 0 1 /d\n"
              "f 0640 0 0 5 1 /d/f\n"
              "c 0000 0 0 0 1 /gone\n"
              "d 0750 7 8 0 1 /new\n"
              "f 0644 0 0 3 1 /new/bytes\n"
              "l 0777 0 0 4 1 /sym -> /d/f\n"
              "f 0600 0 0 3 2 /text\n"
              "f 0600 0 0 3 2 /zlink\n");
    is_listed(&mount, 1,
              "d 0755 0 0 0 1 /\n"
              "d 0755 0 0 0 1 /d\n"
              "f 0644 0 0 5 1 /d/f\n"
              "f 0644 0 0 0 1 /gone\n");
    size_t saved = save(&mount, again, ROOM, &left_out);
    CHECK(ovl_layer(&mount, 2, &length) == OVL_NO_LAYER && length == 0);
    CHECK(ovl_saved(&mount, 0, text, ROOM, &count) == OVL_OK && count == saved);
    CHECK(memcmp(text, again, saved) == 0);
    ovl_unmount(&mount);
    CHECK(mount_text(&mount, "upper = false\nlayer = [{}, {}]") == OVL_OK);
    CHECK(ovl_layer(&mount, 0, &length) == OVL_NO_LAYER && length == 0);
    is_listed(&mount, 2, "d 0755 0 0 0 1 /\n");
    ovl_unmount(&mount);
}

static int32_t mount_upper(ovl_mount *mount, const char *upper, const char *base, char *fault)
{
    static const uint8_t keys[16] = "not to be known";
    size_t length = 0;
    int32_t status = ovl_mount_upper(mount, (const uint8_t *)upper, strlen(upper),
                                     (const uint8_t *)base, strlen(base), (const uint8_t *)"", 0,
                                     (size_t[1]){0}, 0, keys, (uint8_t *)fault, 63, &length);
    fault[length < 63 ? length : 63] = 0;
    return status;
}

/* A saved upper takes the place of the manifest's own; its faults are told as its own. */
static void goes_on(void)
{
    static const char base[] = "layer = [{ entry = [{ path = \"/own\", kind = \"dir\" }] },"
                               "{ entry = [{ path = \"/low\", kind = \"dir\" }] }]";
    static const struct {
        const char *upper, *base, *fault;
        int32_t status;
    } rows[] = {
        {"", base, "manifest: layers", OVL_UPPER_FAULT},
        {"layer", base, "manifest: not TOML", OVL_UPPER_FAULT},
        {"[[layer]]\n[[layer]]\n", base, "manifest: layers", OVL_UPPER_FAULT},
        {"layer = [5]", base, "manifest: key", OVL_UPPER_FAULT},
        {"layer = [{ entry = [{}] }]", base, "layer 0 entry 0: kind", OVL_UPPER_FAULT},
        {"[[layer]]\n", "", "manifest: layers", OVL_FAULT},
        {"[[layer]]\n", "layer = [{}, { entry = [{}] }]", "layer 1 entry 0: kind", OVL_FAULT},
        {"[[layer]]\n", "upper = false\nlayer = [{}, { entry = [{}] }]", "layer 1 entry 0: kind",
         OVL_FAULT},
    };
    ovl_mount mount = OVL_NONE;
    uint64_t client;
    char fault[64];
    uint8_t reply[OVL_REPLY_MOST];
    for (size_t i = 0; i < sizeof rows / sizeof *rows; i++) {
        CHECK(mount_upper(&mount, rows[i].upper, rows[i].base, fault) == rows[i].status);
        CHECK(strcmp(fault, rows[i].fault) == 0 && mount.at == NULL);
    }
    CHECK(mount_upper(&mount, wanted, base, fault) == OVL_OK && fault[0] == 0);
    CHECK(ovl_attach(&mount, &client) == OVL_OK);
    CHECK(answer(&mount, 0, request_of(1, "t", "/low"), reply) > 14 && reply[4] == 0);
    CHECK(answer(&mount, 0, request_of(1, "t", "/text"), reply) > 14 && reply[4] == 0);
    CHECK(answer(&mount, 0, request_of(1, "t", "/own"), reply) == 14 && reply[13] == 2);
    CHECK(mount_upper(&mount, wanted, base, fault) == OVL_MOUNTED && fault[0] == 0);
    ovl_unmount(&mount);
}

static void names_of_blobs(void)
{
    static const struct {
        const char *manifest, *names;
        size_t length, count;
        int32_t status;
    } rows[] = {
        {"blobs = [\"a\", 'b/c']\nlayer = [{}, {}]", "a\0b/c", 6, 2, OVL_OK},
        {"layer = [{}, {}]", "", 0, 0, OVL_OK},
        {"\"blobs\" = [ \"\\u00e9\" , # one\n]\nlayer = [{}, {}]", "\303\251", 3, 1, OVL_OK},
        {"blobs = 5\nlayer = [{}, {}]", "manifest: blobs", 15, 0, OVL_FAULT},
        {"blobs", "manifest: not TOML", 18, 0, OVL_FAULT},
    };
    for (size_t i = 0; i < sizeof rows / sizeof *rows; i++) {
        uint8_t room[32];
        size_t length = 99, count = 99;
        memset(room, 0xee, sizeof room);
        CHECK(ovl_blob_names((const uint8_t *)rows[i].manifest, strlen(rows[i].manifest), room,
                             sizeof room, &length, &count) == rows[i].status);
        CHECK(length == rows[i].length && count == rows[i].count);
        CHECK(memcmp(room, rows[i].names, rows[i].length) == 0 && room[rows[i].length] == 0xee);
    }
    uint8_t small[3] = {7, 7, 7};
    size_t length, count;
    CHECK(ovl_blob_names((const uint8_t *)rows[0].manifest, strlen(rows[0].manifest), small, 2,
                         &length, &count) == OVL_OK && length == 6 && count == 2);
    CHECK(memcmp(small, "a\0\7", 3) == 0);
}

void saving(void)
{
    goes_on();
    names_of_blobs();
    saved_and_mounted_again();
    between_calls();
    layers_line_by_line();
    nothing_to_save();
    left_out_of_it();
}
