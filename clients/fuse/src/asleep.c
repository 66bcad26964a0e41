/* Sleeping in the read of a request. Where there are signals alone to wait for beside the kernel, no
   poll goes before the read, which spares two calls of the system for each request. A signal ends
   that sleep for good: from then on all is waited for together. One that comes just before the read
   ends it too, by an alarm that comes again and again until the signal was seen. */
#include "bridge.h"

#include <errno.h>
#include <fcntl.h>
#include <signal.h>
#include <sys/time.h>
#include <unistd.h>

enum { ALARM = 20000 };  /* microseconds */

static const int ENDS[] = {SIGTERM, SIGINT, SIGHUP};

static volatile sig_atomic_t signalled;

static void note_signal(int number)
{
    static const struct itimerval soon = {{0, ALARM}, {0, ALARM}};
    if (number == SIGALRM)
        return;
    signalled = number;
    setitimer(ITIMER_REAL, &soon, NULL);
}

static void set_mask(int how)
{
    sigset_t ends;
    sigemptyset(&ends);
    for (size_t i = 0; i < sizeof ENDS / sizeof *ENDS; i++)
        sigaddset(&ends, ENDS[i]);
    sigprocmask(how, &ends, NULL);
}

void asleep_begin(struct bridge *bridge, int descriptor)
{
    struct sigaction action = {.sa_handler = note_signal};
    sigset_t alarm;
    sigemptyset(&action.sa_mask);
    sigemptyset(&alarm);
    sigaddset(&alarm, SIGALRM);
    if (fcntl(descriptor, F_SETFL, fcntl(descriptor, F_GETFL) & ~O_NONBLOCK) != 0)
        return;
    sigaction(SIGALRM, &action, NULL);
    for (size_t i = 0; i < sizeof ENDS / sizeof *ENDS; i++)
        sigaction(ENDS[i], &action, NULL);
    bridge->kernel.sleeps = true;
    sigprocmask(SIG_UNBLOCK, &alarm, NULL);
    set_mask(SIG_UNBLOCK);
}

/* The signal comes once more, to where signals are told. */
static void wake_up(struct bridge *bridge, int descriptor)
{
    static const struct itimerval never;
    set_mask(SIG_BLOCK);
    setitimer(ITIMER_REAL, &never, NULL);
    fcntl(descriptor, F_SETFL, fcntl(descriptor, F_GETFL) | O_NONBLOCK);
    bridge->kernel.sleeps = false;
    raise(signalled);
}

ssize_t read_asleep(struct bridge *bridge, int descriptor, void *buffer, size_t room)
{
    ssize_t got = -1;
    errno = EINTR;
    if (!signalled)
        got = read(descriptor, buffer, room);
    if (got < 0 && errno == EINTR && signalled) {
        wake_up(bridge, descriptor);
        errno = EINTR;
    }
    return got;
}
