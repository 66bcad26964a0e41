/* The kernel's side: the mount, the requests as they come, and how serving them ends.

   libfuse reads and writes by these functions, since it doesn't know all that the kernel tells of a
   request, and since the bridge has to wake up for signals and for its connections. */
#include "bridge.h"

#include <errno.h>
#include <fcntl.h>
#include <linux/fuse.h>
#include <poll.h>
#include <signal.h>
#include <stdio.h>
#include <stdlib.h>
#include <string.h>
#include <sys/signalfd.h>
#include <sys/uio.h>
#include <sys/wait.h>
#include <unistd.h>

enum {
    DRAINED = 50,      /* milliseconds without a request, after which there are no more */
    DRAINS_MOST = 2000,/* and milliseconds after which it ends though there are */
    TURN = 20          /* milliseconds after which signals are looked at in any case */
};

/* What libfuse doesn't tell of a request. */

static bool field(const char *bytes, size_t length, size_t at, uint32_t *number)
{
    at += sizeof(struct fuse_in_header);
    if (length < at + sizeof *number)
        return false;
    memcpy(number, bytes + at, sizeof *number);
    return true;
}

static bool has_flag(const char *bytes, size_t length, size_t at, uint32_t flag)
{
    uint32_t flags = 0;
    return field(bytes, length, at, &flags) && (flags & flag);
}

static void note_request(struct kernel *kernel, const char *bytes, size_t length)
{
    struct fuse_in_header head;
    if (length < sizeof head)
        return;
    memcpy(&head, bytes, sizeof head);
    kernel->caller = head.uid;
    kernel->kills = false;
    if (head.opcode == FUSE_INIT) {
        kernel->init = head.unique;
        kernel->offers_kills = has_flag(bytes, length, offsetof(struct fuse_init_in, flags),
                                        FUSE_HANDLE_KILLPRIV_V2);
    } else if (head.opcode == FUSE_WRITE) {
        kernel->kills = has_flag(bytes, length, offsetof(struct fuse_write_in, write_flags),
                                 FUSE_WRITE_KILL_SUIDGID);
    } else if (head.opcode == FUSE_SETATTR) {
        kernel->kills = has_flag(bytes, length, offsetof(struct fuse_setattr_in, valid),
                                 FATTR_KILL_SUIDGID);
    } else if (head.opcode == FUSE_OPEN) {
        kernel->kills = has_flag(bytes, length, offsetof(struct fuse_open_in, open_flags),
                                 FUSE_OPEN_KILL_SUIDGID);
    } else if (head.opcode == FUSE_CREATE) {
        kernel->kills = has_flag(bytes, length, offsetof(struct fuse_create_in, open_flags),
                                 FUSE_OPEN_KILL_SUIDGID);
    }
}

/* The reply that begins all asks to be told which requests take set-user-ID bits, a flag that
   libfuse doesn't know. The kernel then needn't ask for them before each write. */
static void amend_init(struct kernel *kernel, struct iovec *parts, int count)
{
    struct fuse_out_header head;
    struct fuse_init_out init;
    if (!kernel->init || count < 2 || parts[0].iov_len != sizeof head)
        return;
    memcpy(&head, parts[0].iov_base, sizeof head);
    size_t length = parts[1].iov_len < sizeof init ? parts[1].iov_len : sizeof init;
    if (head.unique != kernel->init || head.error || length < offsetof(struct fuse_init_out,
                                                                       max_background))
        return;
    memcpy(&init, parts[1].iov_base, length);
    if (kernel->offers_kills) {
        init.flags |= FUSE_HANDLE_KILLPRIV_V2;
        kernel->tells_kills = true;
    }
    memcpy(parts[1].iov_base, &init, length);
    kernel->init = 0;
}

/* A descriptor in the kernel's place: a stream of the kernel's messages. */

static bool read_whole(int descriptor, char *bytes, size_t count)
{
    while (count > 0) {
        ssize_t got = read(descriptor, bytes, count);
        if (got < 0 && errno == EINTR)
            continue;
        if (got <= 0)
            return false;
        bytes += got;
        count -= (size_t)got;
    }
    return true;
}

static ssize_t read_message(int descriptor, char *buffer, size_t room)
{
    uint32_t length = 0;
    errno = ENODEV;
    if (room < sizeof length || !read_whole(descriptor, buffer, sizeof length))
        return -1;
    memcpy(&length, buffer, sizeof length);
    errno = ENODEV;
    if (length < sizeof length || length > room)
        return -1;
    bool whole = read_whole(descriptor, buffer + sizeof length, length - sizeof length);
    errno = ENODEV;
    return whole ? (ssize_t)length : -1;
}

static ssize_t write_message(int descriptor, const struct iovec *parts, int count)
{
    ssize_t total = 0;
    for (int i = 0; i < count; i++)
        for (size_t at = 0; at < parts[i].iov_len;) {
            ssize_t put = write(descriptor, (char *)parts[i].iov_base + at,
                                parts[i].iov_len - at);
            if (put < 0 && errno != EINTR)
                return -1;
            at += put > 0 ? (size_t)put : 0;
            total += put > 0 ? put : 0;
        }
    return total;
}

static ssize_t write_reply(int descriptor, struct iovec *parts, int count, void *userdata)
{
    struct bridge *bridge = userdata;
    amend_init(&bridge->kernel, parts, count);
    return bridge->options.kernel >= 0 ? write_message(descriptor, parts, count)
        : writev(descriptor, parts, count);
}

/* The end: the kernel writes what it holds while it is served, and then nothing more comes. */

static void drain(struct kernel *kernel, bool unsaved)
{
    kernel->syncer = 0;
    kernel->drains = true;
    kernel->unsaved |= unsaved;
    kernel->last = milliseconds() + DRAINS_MOST;
}

static void sync_mount(struct bridge *bridge)
{
    struct kernel *kernel = &bridge->kernel;
    kernel->syncer = fork();
    if (kernel->syncer == 0) {
        int mount = open(bridge->options.mountpoint, O_RDONLY | O_DIRECTORY | O_CLOEXEC);
        _exit(mount >= 0 && syncfs(mount) == 0 ? 0 : 1);
    }
    if (kernel->syncer < 0)
        drain(kernel, true);
    notify("STOPPING=1");
}

static void take_signal(struct bridge *bridge)
{
    struct kernel *kernel = &bridge->kernel;
    struct signalfd_siginfo told;
    int status;
    if (read(kernel->signals, &told, sizeof told) != sizeof told)
        return;
    if (told.ssi_signo == SIGCHLD) {
        if (kernel->syncer <= 0 || waitpid(kernel->syncer, &status, WNOHANG) != kernel->syncer)
            return;
        drain(kernel, status != 0);
    } else if (bridge->options.kernel < 0 && !kernel->syncer && !kernel->drains) {
        sync_mount(bridge);
    } else {
        kernel->unsaved |= kernel->syncer > 0;
        fuse_session_exit(bridge->session);
    }
}

/* Waits for a request; false where none came before something else has to be done. */
static bool is_asked(struct bridge *bridge, int descriptor)
{
    struct kernel *kernel = &bridge->kernel;
    struct pollfd waits[] = {{.fd = descriptor, .events = POLLIN},
                             {.fd = kernel->signals, .events = POLLIN}};
    int most = bridge->options.keep ? (int)bridge->options.keep * 500 : -1;
    int ready = poll(waits, 2, kernel->drains ? DRAINED : most);
    if (ready < 0)
        return false;
    if (waits[1].revents)
        take_signal(bridge);
    if (kernel->drains && (ready == 0 || milliseconds() > kernel->last))
        fuse_session_exit(bridge->session);
    if (bridge->options.keep && milliseconds() >= kernel->next_care) {
        connections_care(bridge);
        kernel->next_care = milliseconds() + (int64_t)bridge->options.keep * 500;
    }
    return waits[0].revents != 0;
}

static int64_t nanoseconds(void)
{
    struct timespec time;
    clock_gettime(CLOCK_MONOTONIC, &time);
    return (int64_t)time.tv_sec * 1000000000 + time.tv_nsec;
}

/* With --poll: tries for so long before it sleeps, since waking up takes longer than an answer.
   Now and then all else has its turn. */
static ssize_t read_soon(struct bridge *bridge, int descriptor, void *buffer, size_t room)
{
    struct kernel *kernel = &bridge->kernel;
    int64_t end = nanoseconds() + (int64_t)bridge->options.poll * 1000;
    ssize_t got;
    if (milliseconds() >= kernel->next_turn) {
        kernel->next_turn = milliseconds() + TURN;
        errno = EAGAIN;
        return -1;
    }
    do
        got = read(descriptor, buffer, room);
    while (got < 0 && errno == EAGAIN && nanoseconds() < end);
    return got;
}

static ssize_t read_now(struct bridge *bridge, int descriptor, void *buffer, size_t room)
{
    return bridge->options.kernel >= 0 ? read_message(descriptor, buffer, room)
        : read(descriptor, buffer, room);
}

static ssize_t read_request(int descriptor, void *buffer, size_t room, void *userdata)
{
    struct bridge *bridge = userdata;
    bool polls = bridge->options.poll > 0 && bridge->options.kernel < 0;
    while (!fuse_session_exited(bridge->session)) {
        ssize_t got = -1;
        errno = EAGAIN;
        if (bridge->kernel.sleeps)
            got = read_asleep(bridge, descriptor, buffer, room);
        else if (polls && !bridge->kernel.drains)
            got = read_soon(bridge, descriptor, buffer, room);
        if (got < 0 && errno == EAGAIN) {
            if (!is_asked(bridge, descriptor))
                continue;
            if (fuse_session_exited(bridge->session))
                break;
            got = read_now(bridge, descriptor, buffer, room);
        }
        if (got >= 0)
            note_request(&bridge->kernel, buffer, (size_t)got);
        if (got >= 0 || (errno != EAGAIN && errno != EINTR && errno != ENOENT))
            return got;
    }
    errno = EINTR;
    return -1;
}

/* The beginning. */

static bool hear_signals(struct bridge *bridge)
{
    sigset_t heard;
    sigemptyset(&heard);
    sigaddset(&heard, SIGTERM);
    sigaddset(&heard, SIGINT);
    sigaddset(&heard, SIGHUP);
    sigaddset(&heard, SIGCHLD);
    signal(SIGPIPE, SIG_IGN);
    signal(SIGCHLD, SIG_DFL);  /* who started the bridge may have it ignored */
    if (sigprocmask(SIG_BLOCK, &heard, NULL) != 0)
        return false;
    bridge->kernel.signals = signalfd(-1, &heard, SFD_CLOEXEC | SFD_NONBLOCK);
    return bridge->kernel.signals >= 0;
}

/* Into the background once the mount stands, so that who started the bridge can use it. */
static bool go_to_background(struct kernel *kernel)
{
    pid_t child = fork();
    if (child > 0)
        _exit(0);
    if (child < 0)
        return false;
    setsid();
    kernel->in_background = true;
    int nothing = open("/dev/null", O_RDWR);
    for (int i = 0; nothing >= 0 && i < 3; i++)
        dup2(nothing, i);
    if (nothing > 2)
        close(nothing);
    return nothing >= 0 && chdir("/") == 0;
}

static bool mount_it(struct bridge *bridge)
{
    const struct options *options = &bridge->options;
    char text[64];
    if (fuse_session_mount(bridge->session, options->mountpoint) != 0)
        return false;
    if (options->verbose)
        fprintf(stderr, "overlayd-fuse: %s is mounted on %s, sessions: %u\n", options->source,
                options->mountpoint, options->sessions);
    if (!options->foreground && !go_to_background(&bridge->kernel))
        return false;
    snprintf(text, sizeof text, "MAINPID=%ld\nREADY=1", (long)getpid());
    notify(text);
    return true;
}

bool kernel_begin(struct bridge *bridge)
{
    static const struct fuse_custom_io io = {.writev = write_reply, .read = read_request};
    int descriptor = bridge->options.kernel;
    bridge->kernel.signals = -1;
    if (descriptor < 0) {
        if (!mount_it(bridge))
            return false;
        descriptor = fuse_session_fd(bridge->session);
        fcntl(descriptor, F_SETFL, fcntl(descriptor, F_GETFL) | O_NONBLOCK);
    }
    if (!hear_signals(bridge))
        return false;
    if (bridge->options.kernel < 0 && !bridge->options.keep && !bridge->options.poll)
        asleep_begin(bridge, descriptor);
    return fuse_session_custom_io(bridge->session, &io, descriptor) == 0;
}

void kernel_end(struct bridge *bridge)
{
    if (bridge->kernel.syncer > 0)
        kill(bridge->kernel.syncer, SIGKILL);
    if (bridge->options.kernel < 0)
        fuse_session_unmount(bridge->session);
    if (bridge->kernel.signals >= 0)
        close(bridge->kernel.signals);
}
