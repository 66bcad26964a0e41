/* Each request for memory refused in turn: a status, and nothing lost; and memory that doesn't
 * grow. The library's requests are counted where the linker wraps malloc, realloc and free. */
#include "frames.h"
#include "tests.h"

void *__real_malloc(size_t size);
void *__real_realloc(void *block, size_t size);
void __real_free(void *block);
void *__wrap_malloc(size_t size);
void *__wrap_realloc(void *block, size_t size);
void __wrap_free(void *block);

static long asked, refused_at, blocks;
static int for_good;   /* all from that one on are refused */

static int refuses(void)
{
    asked++;
    return refused_at && (for_good ? asked >= refused_at : asked == refused_at);
}

void *__wrap_malloc(size_t size)
{
    void *block = refuses() ? NULL : __real_malloc(size);
    blocks += block != NULL;
    return block;
}

void *__wrap_realloc(void *block, size_t size)
{
    void *moved = refuses() ? NULL : __real_realloc(block, size);
    blocks += block == NULL && moved != NULL;
    return moved;
}

void __wrap_free(void *block)
{
    blocks -= block != NULL;
    __real_free(block);
}

static const char layers[] =
    "layer = [{}, { entry = [{ path = \"/d\", kind = \"dir\" },"
    "{ path = \"/d/f\", kind = \"file\", text = \"hello\" }] }]";

static uint8_t reply[OVL_REPLY_MOST];

/* A call's status in its reply, and its error number where there is one; -1 where there is no
 * reply. */
static int asked_for(ovl_mount *mount, uint64_t client, struct frame *request, int *error)
{
    size_t length;
    int32_t status =
        ovl_call(mount, client, request->bytes, request->length, reply, sizeof reply, &length);
    *error = status == OVL_OK && reply[4] ? reply[length - 1] : 0;
    CHECK(status == OVL_OK || status == OVL_NO_MEMORY || status == OVL_UNWRITTEN);
    return status == OVL_OK ? reply[4] : -1;
}

/* A change of mode copies a file up first: in one call, or in steps, it is made or not. */
static void change_mode(ovl_mount *mount, uint64_t client, int in_steps, long number)
{
    int error, made = -1;
    uint64_t job = 0;
    size_t length = 0;
    struct frame *request = request_of(3, "ut", 0600, "/d/f");
    if (!in_steps) {
        made = asked_for(mount, client, request, &error);
    } else if (ovl_begin(mount, client, request->bytes, request->length, &job, reply,
                         sizeof reply, &length) == OVL_MORE) {
        int32_t status;
        while ((status = ovl_step(mount, job, reply, sizeof reply, &length)) == OVL_MORE)
            ;
        CHECK(status == OVL_OK || status == OVL_UNWRITTEN);
        made = status == OVL_OK ? reply[4] : -1;
        error = made > 0 ? reply[length - 1] : 0;
    }
    CHECK(made == 0 || made == -1 || (made == 2 && error == 12));
    refused_at = 0;
    CHECK(asked_for(mount, client, request_of(1, "t", "/d/f"), &error) == 0);
    CHECK(reply[13] == 2 && reply[33] == 5);
    CHECK(reply[16] == 1 && (reply[17] == 0x80 || reply[17] == 0xa4));
    CHECK(made != 0 || reply[17] == 0x80);
    CHECK(made != 2 || reply[17] == 0xa4);
    refused_at = number;
}

/* Bytes are moved or not, and the count says so; a place is told or not. */
static void move_bytes(ovl_mount *mount, uint64_t client)
{
    uint8_t bytes[8], error;
    size_t count = 9, layer, key;
    int32_t status = ovl_read(mount, client, 0, bytes, sizeof bytes, &count, &error);
    CHECK(status == OVL_OK || status == OVL_NO_MEMORY || (status == OVL_REFUSED && error == 9));
    CHECK(status == OVL_OK || count == 0);
    status = ovl_write(mount, client, 0, bytes, sizeof bytes, &count, &error);
    CHECK(status == OVL_OK || status == OVL_NO_MEMORY || status == OVL_REFUSED);
    CHECK(status == OVL_OK ? count == sizeof bytes : count == 0);
    status = ovl_place(mount, (const uint8_t *)"/d/f", 4, &layer, &key, &error);
    CHECK(status == OVL_OK || status == OVL_NO_MEMORY);
}

/* A text is kept whole, or the one before stays. */
static void save_twice(ovl_mount *mount, long number)
{
    size_t length, count, before = 0;
    uint64_t left_out;
    refused_at = 0;
    CHECK(ovl_save(mount, &before, &left_out) == OVL_OK && before > 1);
    refused_at = number;
    int32_t status = ovl_save(mount, &length, &left_out);
    CHECK(status == OVL_OK ? length == before : status == OVL_NO_MEMORY && length == 0);
    CHECK(ovl_saved(mount, before - 1, reply, sizeof reply, &count) == OVL_OK && count == 1);
    /* A layer's lines take its place whole: those of its root, of /d and of /d/f. */
    status = ovl_layer(mount, 1, &length);
    CHECK(status == OVL_OK ? length == 55 : status == OVL_NO_MEMORY && length == 0);
    CHECK(ovl_saved(mount, 0, reply, sizeof reply, &count) == OVL_OK);
    CHECK(count == (status == OVL_OK ? length : before));
}

/* A session in which the request of this number is refused, and all behind it where that is so for
 * good; whether it was reached. */
static int session(long number, int in_steps)
{
    ovl_mount mount = OVL_NONE;
    uint64_t client = 0, place;
    int error;
    asked = 0;
    refused_at = number;
    int32_t status = mount_text(&mount, layers);
    CHECK(status == OVL_OK || status == OVL_NO_MEMORY);
    CHECK((status == OVL_OK) == (mount.at != NULL));
    if (status == OVL_OK) {
        status = ovl_attach(&mount, &client);
        CHECK(status == OVL_OK || status == OVL_NO_MEMORY);
    }
    if (status == OVL_OK) {
        change_mode(&mount, client, in_steps, number);
        int opened = asked_for(&mount, client, request_of(11, "but", 2, 0, "/d/f"), &error);
        CHECK(opened == 0 || opened == -1 || (opened == 2 && error == 12));
        move_bytes(&mount, client);
        save_twice(&mount, number);
        CHECK(ovl_detach(&mount, client, &place) == OVL_OK);
    }
    ovl_unmount(&mount);
    CHECK(mount.at == NULL);
    return asked >= number;
}

void refused_memory(void)
{
    long before = blocks;
    for (int form = 0; form < 4; form++) {
        long number = 1;
        for_good = form / 2;
        while (session(number, form % 2))
            CHECK(blocks == before), number++;
        refused_at = 0;
        CHECK(number > 40 && blocks == before);
        printf("%ld requests for memory refused in turn%s%s\n", number - 1,
               form % 2 ? ", calls in steps" : "", for_good ? ", and all behind each" : "");
    }
    for_good = 0;
}

/* So many calls leave as many blocks as the first ones did. */
void steady_memory(long rounds)
{
    ovl_mount mount = OVL_NONE;
    uint64_t client;
    int error;
    long before = blocks, first = 0;
    CHECK(mount_text(&mount, layers) == OVL_OK && ovl_attach(&mount, &client) == OVL_OK);
    for (long round = 0; round < rounds; round++) {
        CHECK(asked_for(&mount, client, request_of(9, "ut", 0755, "/n"), &error) == 0);
        CHECK(asked_for(&mount, client, request_of(1, "t", "/d/f"), &error) == 0);
        CHECK(asked_for(&mount, client, request_of(13, "t", "/n"), &error) == 0);
        if (round == 100)
            first = blocks;
    }
    CHECK(blocks == first);
    ovl_unmount(&mount);
    CHECK(blocks == before);
}
