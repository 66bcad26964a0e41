/* Calls in steps, bytes without frames, and places. */
#include "frames.h"
#include "tests.h"

#define SIZE (1 << 20)
#define STEPPED 4096

/* A lower file of `SIZE` zero bytes, with a second name of it, and another file. */
static const char layers[] =
    "layer = [{}, { entry = ["
    "{ path = \"/big\", kind = \"file\", zeros = 1048576 },"
    "{ path = \"/other\", kind = \"link\", to = \"/big\" },"
    "{ path = \"/d\", kind = \"dir\" },"
    "{ path = \"/d/f\", kind = \"file\", text = \"hello\" },"
    "{ path = \"/l\", kind = \"symlink\", target = \"/d\" }] }]";

static uint8_t reply[OVL_REPLY_MOST];

static int32_t begin(ovl_mount *mount, uint64_t client, struct frame *request, uint64_t *job)
{
    size_t length = 7;
    int32_t status = ovl_begin(mount, client, request->bytes, request->length, job, reply,
                               sizeof reply, &length);
    CHECK(status == OVL_OK ? length > 0 : length == 0);
    CHECK(status == OVL_MORE || *job == 0);
    return status;
}

/* How many steps a job makes; the frame of its reply is to be these bytes. */
static long steps_to(ovl_mount *mount, uint64_t job, const char *wanted)
{
    size_t length = 7;
    long steps = 1;
    while (ovl_step(mount, job, reply, sizeof reply, &length) == OVL_MORE && steps < 1000000) {
        CHECK(length == 0);
        steps++;
    }
    struct frame *bytes = from_hex(wanted);
    CHECK(length == bytes->length && memcmp(reply, bytes->bytes, length) == 0);
    CHECK(ovl_step(mount, job, reply, sizeof reply, &length) == OVL_NO_JOB && length == 0);
    return steps;
}

/* A copy of a large file goes in many steps, and calls of others come between. */
static void copies_in_steps(void)
{
    ovl_mount mount = OVL_NONE;
    uint64_t a, b, job = 9, place;
    CHECK(mount_text(&mount, layers) == OVL_OK && ovl_attach(&mount, &a) == OVL_OK);
    CHECK(ovl_attach(&mount, &b) == OVL_OK);
    CHECK(begin(&mount, a, request_of(11, "but", 1, 0, "/big"), &job) == OVL_MORE && job == 0);
    for (int step = 0; step < 10; step++)
        CHECK(ovl_step(&mount, job, reply, sizeof reply, &(size_t){0}) == OVL_MORE);
    CHECK(replies(&mount, b, request_of(1, "t", "/big"),
                  "00000022 00 0000000000000002 02 000001a4 00000000 00000000"
                  "0000000000100000 00000002"));
    /* 256 chunks of 4,096 bytes, less the ten steps before, with the first and the last step. */
    long left = steps_to(&mount, job, "0000000d 00 0000000000000003 00000000");
    CHECK(left >= SIZE / STEPPED - 10 && left <= SIZE / STEPPED + 4 - 10);
    CHECK(begin(&mount, a, request_of(1, "t", "/x"), &job) == OVL_MORE && job == 1);
    CHECK(steps_to(&mount, job, "0000000a 01 0000000000000004 02") == 1);
    CHECK(ovl_detach(&mount, a, &place) == OVL_OK && place == 5);
    ovl_unmount(&mount);
}

/* A job that is given up leaves nothing; a path text that is refused is answered, and is no job. */
static void jobs_given_up(void)
{
    ovl_mount mount = OVL_NONE;
    uint64_t a, job = 9, other = 9, place;
    size_t length = 7;
    CHECK(ovl_drop(&mount, 0) == OVL_NOT_MOUNTED);
    CHECK(ovl_step(&mount, 0, reply, 9, &length) == OVL_NOT_MOUNTED && length == 0);
    CHECK(begin(&mount, 0, from_hex("00000004 01 0001 2f"), &job) == OVL_NOT_MOUNTED);
    CHECK(mount_text(&mount, layers) == OVL_OK && ovl_attach(&mount, &a) == OVL_OK);
    CHECK(begin(&mount, a, from_hex("00000004 01 0001 78"), &job) == OVL_OK);
    CHECK(memcmp(reply, from_hex("00000002 02 16")->bytes, 6) == 0);
    CHECK(begin(&mount, a, from_hex("00000001 1a"), &job) == OVL_DETACH);
    CHECK(begin(&mount, a, from_hex("00000001 1b"), &job) == OVL_NO_FRAME);
    CHECK(begin(&mount, a + 1, from_hex("00000004 01 0001 2f"), &job) == OVL_NO_CLIENT);
    CHECK(begin(&mount, a, request_of(3, "ut", 0600, "/big"), &job) == OVL_MORE && job == 0);
    CHECK(begin(&mount, a, request_of(11, "but", 1, 0, "/big"), &other) == OVL_MORE && other == 1);
    CHECK(ovl_step(&mount, other, reply, sizeof reply, &length) == OVL_MORE);
    CHECK(ovl_drop(&mount, other) == OVL_OK && ovl_drop(&mount, other) == OVL_NO_JOB);
    CHECK(ovl_drop(&mount, 2) == OVL_NO_JOB);
    CHECK(ovl_detach(&mount, a, &place) == OVL_OK && place == 1);
    CHECK(ovl_step(&mount, job, reply, sizeof reply, &length) == OVL_NO_CLIENT && length == 0);
    CHECK(ovl_step(&mount, job, reply, sizeof reply, &length) == OVL_NO_JOB);
    CHECK(ovl_attach(&mount, &a) == OVL_OK);
    CHECK(begin(&mount, a, request_of(11, "but", 1, 0, "/big"), &job) == OVL_MORE && job == 2);
    CHECK(ovl_step(&mount, job, reply, sizeof reply, &length) == OVL_MORE);
    ovl_unmount(&mount);
}

/* Bytes go where the descriptor stands, and come from there. */
static void bytes_without_frames(void)
{
    static uint8_t bytes[70000], back[70000];
    ovl_mount mount = OVL_NONE;
    uint64_t a;
    size_t count = 7;
    uint8_t error = 7;
    CHECK(ovl_read(&mount, 0, 0, back, 4, &count, &error) == OVL_NOT_MOUNTED);
    CHECK(count == 0 && error == 0);
    CHECK(mount_text(&mount, layers) == OVL_OK && ovl_attach(&mount, &a) == OVL_OK);
    CHECK(replies(&mount, a, request_of(11, "but", 2, 0, "/d/f"),
                  "0000000d 00 0000000000000001 00000000"));
    memset(back, 0xee, sizeof back);
    CHECK(ovl_read(&mount, a, 0, back, 3, &count, &error) == OVL_OK && count == 3 && error == 0);
    CHECK(memcmp(back, "hel\xee", 4) == 0);
    CHECK(ovl_read(&mount, a, 0, back, 9, &count, &error) == OVL_OK && count == 2);
    CHECK(memcmp(back, "lol\xee", 4) == 0);
    CHECK(ovl_read(&mount, a, 0, back, 9, &count, &error) == OVL_OK && count == 0);
    memset(bytes, 'x', sizeof bytes);
    CHECK(ovl_write(&mount, a, 0, bytes, sizeof bytes, &count, &error) == OVL_OK);
    CHECK(count == 65536 && error == 0);
    CHECK(ovl_write(&mount, a, 1, bytes, 1, &count, &error) == OVL_REFUSED);
    CHECK(count == 0 && error == 9);
    CHECK(ovl_read(&mount, a, 1, back, 1, &count, &error) == OVL_REFUSED && error == 9);
    CHECK(ovl_read(&mount, a + 1, 0, back, 1, &count, &error) == OVL_NO_CLIENT && error == 0);
    CHECK(replies(&mount, a, request_of(18, "uqb", 0, (uint64_t)0, 0),
                  "00000011 00 0000000000000008 0000000000000000"));
    CHECK(ovl_read(&mount, a, 0, back, sizeof back, &count, &error) == OVL_OK && count == 65536);
    CHECK(memcmp(back, "hellox", 6) == 0 && memcmp(back + 6, bytes, 65530) == 0);
    CHECK(back[65536] == 0xee);
    ovl_unmount(&mount);
}

static int32_t place_of(ovl_mount *mount, const char *path, size_t *layer, size_t *key)
{
    uint8_t error = 77;
    int32_t status = ovl_place(mount, (const uint8_t *)path, strlen(path), layer, key, &error);
    return status == OVL_REFUSED ? 100 + error : error == 0 ? status : -1;
}

/* Two names of one file have one place, and a copy goes to the upper. */
static void places(void)
{
    ovl_mount mount = OVL_NONE;
    uint64_t a;
    size_t layer = 5, key = 5, layer2 = 5, key2 = 5;
    CHECK(place_of(&mount, "/", &layer, &key) == OVL_NOT_MOUNTED && layer == 5 && key == 5);
    CHECK(mount_text(&mount, layers) == OVL_OK && ovl_attach(&mount, &a) == OVL_OK);
    CHECK(place_of(&mount, "/", &layer, &key) == OVL_OK && layer == 0);
    CHECK(place_of(&mount, "/big", &layer, &key) == OVL_OK && layer == 1);
    CHECK(place_of(&mount, "/other", &layer2, &key2) == OVL_OK && layer2 == 1 && key2 == key);
    CHECK(place_of(&mount, "/d/f", &layer2, &key2) == OVL_OK && layer2 == 1 && key2 != key);
    CHECK(place_of(&mount, "/x", &layer2, &key2) == 102);
    CHECK(place_of(&mount, "/d/f/x", &layer2, &key2) == 120);
    CHECK(place_of(&mount, "/l/f", &layer2, &key2) == 140);
    CHECK(place_of(&mount, "x", &layer2, &key2) == 122);
    CHECK(replies(&mount, a, request_of(3, "ut", 0600, "/d/f"),
                  "00000009 00 0000000000000001"));
    CHECK(place_of(&mount, "/d/f", &layer2, &key2) == OVL_OK && layer2 == 0);
    CHECK(replies(&mount, a, request_of(14, "tt", "/d/f", "/g"), "00000009 00 0000000000000002"));
    CHECK(place_of(&mount, "/g", &layer, &key) == OVL_OK && layer == 0 && key == key2);
    ovl_unmount(&mount);
}

void jobs_and_places(void)
{
    copies_in_steps();
    jobs_given_up();
    bytes_without_frames();
    places();
}
