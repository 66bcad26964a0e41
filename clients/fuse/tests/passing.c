/* A library in the engine's place: it passes each request on to a server, a client of which each
   client is, and gives what that answers, word for word. So the tests that play a server, which may
   lie, and those that have a client beside the bridge, run on the bridge's transport inside too.

   The server is the one at $OVERLAYD_SOCKET; or else, for a mount of a manifest without blobs, the
   program $OVERLAYD is started, which saves its upper where that is wanted. It tells no places. */
#include <overlayd.h>

#include <errno.h>
#include <fcntl.h>
#include <stdbool.h>
#include <stdio.h>
#include <stdlib.h>
#include <string.h>
#include <sys/socket.h>
#include <sys/stat.h>
#include <sys/un.h>
#include <sys/wait.h>
#include <time.h>
#include <unistd.h>

enum { LINKS = 1 << 16, LENGTH = 4, PIECE = 65536, OP_READ = 16, OP_WRITE = 17, PATH = 64 };
enum { TRIES = 12000, PAUSE = 10000000 };  /* each of so many nanoseconds */

static int links[LINKS], attached;

/* A server that was started: its folder, its process, and what ends it when it is closed. */
static struct {
    char folder[PATH];
    pid_t process;
    int input;
    uint8_t *saved;
    size_t length;
} served = {.input = -1};

static void path_of(char *path, const char *name)
{
    snprintf(path, 2 * PATH, "%s/%s", served.folder, name);
}

static void pause_once(void)
{
    struct timespec time = {.tv_nsec = PAUSE};
    nanosleep(&time, NULL);
}

static bool write_file(const char *path, const uint8_t *bytes, size_t length)
{
    FILE *file = fopen(path, "we");
    bool is_written = file && fwrite(bytes, 1, length, file) == length;
    return file && fclose(file) == 0 && is_written;
}

static uint8_t *read_file(const char *path, size_t *length)
{
    FILE *file = fopen(path, "re");
    struct stat stat;
    uint8_t *bytes = file && fstat(fileno(file), &stat) == 0
        ? malloc((size_t)stat.st_size + 1) : NULL;
    *length = bytes ? fread(bytes, 1, (size_t)stat.st_size, file) : 0;
    if (file)
        fclose(file);
    return bytes;
}

/* It ends with its standard input, or with whoever started it. */
static void run_server(int input)
{
    char manifest[2 * PATH], upper[2 * PATH], socket[2 * PATH], saved[2 * PATH], told[2 * PATH];
    const char *program = getenv("OVERLAYD");
    path_of(manifest, "m.toml");
    path_of(upper, "upper.toml");
    path_of(socket, "s");
    path_of(saved, "saved.toml");
    path_of(told, "told");
    dup2(input, 0);
    int output = open(told, O_WRONLY | O_CREAT, 0600);
    dup2(output, 1);
    dup2(output, 2);
    if (program)
        execl(program, program, "serve", manifest, socket, "--workers", "64", "--no-history",
              "--until-eof", "--save", saved, access(upper, F_OK) == 0 ? "--upper" : NULL, upper,
              NULL);
    _exit(127);
}

/* Whether it listens; its fault, where it ended. */
static bool start_server(uint8_t *fault, size_t room, size_t *length)
{
    char path[2 * PATH];
    int ends[2], status;
    struct stat stat;
    if (pipe2(ends, O_CLOEXEC) != 0)
        return false;
    served.process = fork();
    if (served.process == 0)
        run_server(ends[0]);
    close(ends[0]);
    served.input = ends[1];
    path_of(path, "s");
    for (int i = 0; i < TRIES && lstat(path, &stat) != 0; i++) {
        if (waitpid(served.process, &status, WNOHANG) == served.process) {
            path_of(path, "told");
            uint8_t *told = read_file(path, length);
            size_t skip = strlen("overlayd: ");
            *length = told && *length > skip ? *length - skip - 1 : 0;
            if (told)
                memcpy(fault, told + skip, *length < room ? *length : room);
            free(told);
            return false;
        }
        pause_once();
    }
    return true;
}

uint32_t ovl_version(void)
{
    return OVL_VERSION;
}

static int32_t mount_it(ovl_mount *mount, const uint8_t *upper, size_t upper_length,
                        const uint8_t *manifest, size_t manifest_length, uint8_t *fault,
                        size_t room, size_t *length)
{
    char path[2 * PATH];
    mount->at = &attached;
    *length = 0;
    if (getenv("OVERLAYD_SOCKET"))
        return OVL_OK;
    strcpy(served.folder, "/tmp/passing.XXXXXX");
    if (!mkdtemp(served.folder))
        return OVL_NO_MEMORY;
    path_of(path, "m.toml");
    if (!write_file(path, manifest, manifest_length))
        return OVL_NO_MEMORY;
    path_of(path, "upper.toml");
    if (upper && !write_file(path, upper, upper_length))
        return OVL_NO_MEMORY;
    return start_server(fault, room, length) ? OVL_OK : OVL_FAULT;
}

int32_t ovl_mount_manifest(ovl_mount *mount, const uint8_t *manifest, size_t manifest_length,
                           const uint8_t *blobs, size_t blobs_length,
                           const size_t *lengths, size_t count, const uint8_t keys[16],
                           uint8_t *fault, size_t room, size_t *length)
{
    (void)blobs, (void)blobs_length, (void)lengths, (void)count, (void)keys;
    return mount_it(mount, NULL, 0, manifest, manifest_length, fault, room, length);
}

/* A fault of the upper is told with its file's name. */
int32_t ovl_mount_upper(ovl_mount *mount, const uint8_t *upper, size_t upper_length,
                        const uint8_t *manifest, size_t manifest_length,
                        const uint8_t *blobs, size_t blobs_length,
                        const size_t *lengths, size_t count, const uint8_t keys[16],
                        uint8_t *fault, size_t room, size_t *length)
{
    char path[2 * PATH];
    (void)blobs, (void)blobs_length, (void)lengths, (void)count, (void)keys;
    int32_t status = mount_it(mount, upper, upper_length, manifest, manifest_length, fault, room,
                              length);
    path_of(path, "upper.toml");
    size_t head = strlen(path);
    if (status != OVL_FAULT || *length <= head || memcmp(fault, path, head) != 0)
        return status;
    *length -= head + 2;
    memmove(fault, fault + head + 2, *length < room - head - 2 ? *length : room - head - 2);
    return OVL_UPPER_FAULT;
}

int32_t ovl_blob_names(const uint8_t *manifest, size_t manifest_length, uint8_t *names, size_t room,
                       size_t *length, size_t *count)
{
    (void)manifest, (void)manifest_length, (void)names, (void)room;
    *length = *count = 0;
    return OVL_OK;
}

void ovl_unmount(ovl_mount *mount)
{
    static const char *const names[] = {"m.toml", "upper.toml", "s", "told",
                                        "saved.toml"};
    char path[2 * PATH];
    mount->at = NULL;
    if (served.input >= 0)
        close(served.input);
    for (size_t i = 0; served.folder[0] && i < sizeof names / sizeof *names; i++) {
        path_of(path, names[i]);
        unlink(path);
    }
    if (served.folder[0])
        rmdir(served.folder);
    free(served.saved);
}

int32_t ovl_attach(ovl_mount *mount, uint64_t *client)
{
    char own[2 * PATH];
    const char *path = getenv("OVERLAYD_SOCKET");
    struct sockaddr_un address = {.sun_family = AF_UNIX};
    (void)mount;
    if (!path) {
        path_of(own, "s");
        path = own;
    }
    if (strlen(path) >= sizeof address.sun_path || attached == LINKS)
        return OVL_ENDED;
    strcpy(address.sun_path, path);
    int link = socket(AF_UNIX, SOCK_STREAM | SOCK_CLOEXEC, 0), fault = -1;
    for (int i = 0; link >= 0 && i < TRIES && fault != 0; i++) {
        fault = connect(link, (struct sockaddr *)&address, sizeof address);
        if (fault != 0 && (errno != ECONNREFUSED || served.input < 0))
            break;
        if (fault != 0)
            pause_once();
    }
    if (fault != 0) {
        close(link);
        return OVL_ENDED;
    }
    *client = (uint64_t)attached;
    links[attached++] = link;
    return OVL_OK;
}

int32_t ovl_detach(ovl_mount *mount, uint64_t client, uint64_t *place)
{
    (void)mount;
    close(links[client]);
    *place = 0;
    return OVL_OK;
}

static bool send_all(int link, const uint8_t *bytes, size_t count)
{
    while (count > 0) {
        ssize_t put = send(link, bytes, count, MSG_NOSIGNAL);
        if (put <= 0)
            return false;
        bytes += put;
        count -= (size_t)put;
    }
    return true;
}

static bool take_all(int link, uint8_t *bytes, size_t count)
{
    while (count > 0) {
        ssize_t got = recv(link, bytes, count, 0);
        if (got <= 0)
            return false;
        bytes += got;
        count -= (size_t)got;
    }
    return true;
}

int32_t ovl_call(ovl_mount *mount, uint64_t client, const uint8_t *request, size_t request_length,
                 uint8_t *reply, size_t room, size_t *length)
{
    int link = links[client];
    size_t body = 0;
    (void)mount;
    if (!send_all(link, request, request_length) || !take_all(link, reply, LENGTH))
        return OVL_ENDED;
    for (int i = 0; i < LENGTH; i++)
        body = body << 8 | reply[i];
    if (body > room - LENGTH || !take_all(link, reply + LENGTH, body))
        return OVL_ENDED;
    *length = LENGTH + body;
    return OVL_OK;
}

/* Bytes without a frame: by one here. The request's fields are a descriptor and a count. */
static size_t begin_frame(uint8_t *frame, uint8_t op, uint32_t descriptor, size_t length,
                          size_t more)
{
    size_t body = 9 + more;
    const uint8_t head[] = {(uint8_t)(body >> 24), (uint8_t)(body >> 16), (uint8_t)(body >> 8),
                            (uint8_t)body, op, (uint8_t)(descriptor >> 24),
                            (uint8_t)(descriptor >> 16), (uint8_t)(descriptor >> 8),
                            (uint8_t)descriptor, (uint8_t)(length >> 24),
                            (uint8_t)(length >> 16), (uint8_t)(length >> 8), (uint8_t)length};
    memcpy(frame, head, sizeof head);
    return sizeof head + more;
}

/* A reply of status 0 has a place and then a number; of status 1 a place and an error number; of
   status 2 that alone. EIO is no error number of the engine's. */
static int32_t number_of(const uint8_t *reply, size_t length, size_t *count, uint8_t *error)
{
    uint8_t status = length > LENGTH ? reply[LENGTH] : UINT8_MAX;
    *count = 0;
    *error = 0;
    if ((status == 1 && length == 14) || (status == 2 && length == 6)) {
        *error = reply[length - 1];
        return *error != 0 && *error != 5 ? OVL_REFUSED : OVL_ENDED;
    }
    if (status != 0 || length < 17)
        return OVL_ENDED;
    for (int i = 13; i < 17; i++)
        *count = *count << 8 | reply[i];
    return OVL_OK;
}

int32_t ovl_read(ovl_mount *mount, uint64_t client, uint32_t descriptor, uint8_t *bytes,
                 size_t length, size_t *count, uint8_t *error)
{
    static uint8_t frame[OVL_REQUEST_MOST], reply[OVL_REPLY_MOST];
    size_t got = 0, most = length < PIECE ? length : PIECE;
    size_t sent = begin_frame(frame, OP_READ, descriptor, most, 0);
    int32_t status = ovl_call(mount, client, frame, sent, reply, sizeof reply, &got);
    if (status == OVL_OK)
        status = number_of(reply, got, count, error);
    if (status == OVL_OK && (*count > most || got != 17 + *count))
        status = OVL_ENDED;
    if (status == OVL_OK)
        memcpy(bytes, reply + 17, *count);
    else
        *count = 0;
    return status;
}

int32_t ovl_write(ovl_mount *mount, uint64_t client, uint32_t descriptor, const uint8_t *bytes,
                  size_t length, size_t *count, uint8_t *error)
{
    static uint8_t frame[OVL_REQUEST_MOST], reply[OVL_REPLY_MOST];
    size_t got = 0, most = length < PIECE ? length : PIECE;
    size_t sent = begin_frame(frame, OP_WRITE, descriptor, most, most);
    memcpy(frame + sent - most, bytes, most);
    int32_t status = ovl_call(mount, client, frame, sent, reply, sizeof reply, &got);
    if (status == OVL_OK)
        status = number_of(reply, got, count, error);
    if (status == OVL_OK && (*count > most || (*count == 0 && most > 0) || got != 17))
        status = OVL_ENDED;
    *count = status == OVL_OK ? *count : 0;
    return status;
}

int32_t ovl_place(ovl_mount *mount, const uint8_t *path, size_t path_length, size_t *layer,
                  size_t *key, uint8_t *error)
{
    (void)mount, (void)path, (void)path_length, (void)layer, (void)key;
    *error = 0;
    return OVL_NOT_MOUNTED;
}

/* Ends the server, which saves its upper then. */
int32_t ovl_save(ovl_mount *mount, size_t *length, uint64_t *left_out)
{
    char path[2 * PATH];
    (void)mount;
    if (served.input < 0)
        return OVL_NOT_MOUNTED;
    for (int i = 0; i < attached; i++)
        shutdown(links[i], SHUT_RDWR);
    close(served.input);
    served.input = -1;
    path_of(path, "saved.toml");
    for (int i = 0; i < TRIES && access(path, F_OK) != 0; i++)
        pause_once();
    served.saved = read_file(path, &served.length);
    *length = served.length;
    *left_out = 0;
    return served.saved ? OVL_OK : OVL_NO_MEMORY;
}

int32_t ovl_saved(ovl_mount *mount, size_t from, uint8_t *text, size_t room, size_t *count)
{
    size_t left = from < served.length ? served.length - from : 0;
    (void)mount;
    *count = left < room ? left : room;
    memcpy(text, served.saved + from, *count);
    return OVL_OK;
}
