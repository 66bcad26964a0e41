/* Whether the server keeps a history, which gets full one day: no reply tells it, but the file that
   the server's --status writes does. */
#include "bridge.h"

#include <errno.h>
#include <fcntl.h>
#include <stdio.h>
#include <string.h>
#include <unistd.h>

enum { STATUS_BYTES = 4096 };

static const char NO_STATUS[] = "it isn't what a server's --status writes";

/* What stands behind a word that begins a line. */
static const char *said(const char *text, const char *word)
{
    size_t length = strlen(word);
    while (text && (strncmp(text, word, length) != 0 || text[length] != ' ')) {
        text = strchr(text, '\n');
        text = text ? text + 1 : NULL;
    }
    return text ? text + length + 1 : NULL;
}

static bool is_word(const char *at, const char *word)
{
    size_t length = strlen(word);
    return strncmp(at, word, length) == 0 && at[length] == '\n';
}

/* A server writes it every second, so one that is old is of a server that is gone. */
static const char *judge_file(int descriptor, unsigned most_seconds)
{
    struct stat stat;
    struct timespec time;
    if (fstat(descriptor, &stat) != 0)
        return strerror(errno);
    if (!S_ISREG(stat.st_mode))
        return NO_STATUS;
    clock_gettime(CLOCK_REALTIME, &time);
    return time.tv_sec - stat.st_mtim.tv_sec > (time_t)most_seconds
        ? "the server doesn't write it any more" : NULL;
}

static const char *read_status(const char *path, unsigned most_seconds, char *text, size_t room)
{
    int descriptor = open(path, O_RDONLY | O_NONBLOCK | O_NOCTTY | O_CLOEXEC);
    if (descriptor < 0)
        return strerror(errno);
    const char *doubt = judge_file(descriptor, most_seconds);
    ssize_t got = doubt ? 0 : read(descriptor, text, room - 1);
    if (got < 0)
        doubt = strerror(errno);
    text[got > 0 ? got : 0] = 0;
    close(descriptor);
    return doubt;
}

/* Why what is mounted may not go on for ever; NULL where the server keeps no history. */
static const char *doubt_of(const char *text, char *told, size_t room)
{
    const char *state = said(text, "state"), *places = said(text, "places");
    if (!state || !places)
        return NO_STATUS;
    if (!is_word(state, "serves") && !is_word(state, "begins"))
        return "the server has ended";
    if (is_word(places, "none"))
        return NULL;
    size_t digits = strspn(places, "0123456789");
    if (digits == 0 || places[digits] != '\n')
        return NO_STATUS;
    snprintf(told, room, "the server keeps a history of %.*s places, and refuses each call when it "
             "is full; serve with --no-history", (int)digits, places);
    return told;
}

bool history_judged(const struct bridge *bridge)
{
    const struct options *options = &bridge->options;
    char text[STATUS_BYTES], told[STATUS_BYTES + 160];
    if (!options->status)
        return true;
    const char *doubt = read_status(options->status, options->wait, text, sizeof text);
    if (!doubt)
        doubt = doubt_of(text, told, sizeof told);
    if (doubt)
        tell(bridge, "%s: %s", options->status, doubt);
    return !doubt || !options->strict;
}
