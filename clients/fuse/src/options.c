/* The command line: what it says, or in one line what is wrong with it. */
#include "options.h"

#include <errno.h>
#include <getopt.h>
#include <limits.h>
#include <stdio.h>
#include <stdlib.h>
#include <string.h>
#include <unistd.h>

#define VERSION "0.4.0"

enum { STATUS_USAGE = 2, SESSIONS = 4, WAIT = 30, KEEP = 1, SECONDS_MAX = 3600, POLL_MAX = 1000 };

static const int64_t BYTES_MAX = INT64_C(1) << 40, BYTES = INT64_C(1) << 30;

static const char USAGE[] =
    "usage: overlayd-fuse --manifest FILE MOUNTPOINT [options]\n"
    "       overlayd-fuse SOCKET MOUNTPOINT [options]\n"
    "\n"
    "Mounts what the manifest FILE describes, with the engine in this process, or what\n"
    "`overlayd serve` serves on SOCKET, until it is unmounted (fusermount3 -u MOUNTPOINT) or\n"
    "interrupted. It goes into the background once it is mounted.\n"
    "\n"
    "  -f, --foreground        stay in the foreground\n"
    "  --manifest FILE         mount this, without a server\n"
    "  --upper FILE            go on with the upper layer that --save left in FILE\n"
    "  --save FILE             save the upper layer to FILE in the end\n"
    "  --size BYTES            the mount may grow by so much memory, and what would take more is\n"
    "                          refused (no bound)\n"
    "  --manifest-limit BYTES  the most that FILE and what it names may have (1073741824)\n"
    "  --sessions N            connections to the server, 1 to 64; it needs a worker for each (4)\n"
    "  --max-sessions N        the most there may be while more files are open, up to 64 (64)\n"
    "  --shared                others change the mount too: nothing is cached\n"
    "  --status FILE           tell where FILE, which the server's --status writes, says that it\n"
    "                          keeps a history, by which each call is refused one day\n"
    "  --strict                mount nothing then\n"
    "  --times                 keep times in attributes, as " META ", as --manifest does\n"
    "  --no-times              keep them in memory alone\n"
    "  --devices               take devices from that attribute, too, where it says so\n"
    "  --map-uids INNER:OUTER:COUNT   show owners of the mount from INNER on as OUTER and on\n"
    "  --map-gids INNER:OUTER:COUNT   the same for groups\n"
    "  --squash                show all as yours, and make it for owner and group 0\n"
    "  --poll MICROSECONDS     wait so long for the next request before sleeping, 0 to 1000 (0)\n"
    "  --wait SECONDS          how long the server may take for an answer, 1 to 3600 (30)\n"
    "  --keep SECONDS          ask each connection in this time, 1 to 3600, or 0 for never (1)\n"
    "  --verbose               tell on standard error what is mounted, and what was asked\n"
    "  --version               print the version\n"
    "  -o OPTIONS              options of mount, as in mount.fuse3(8), and all of these, as in\n"
    "                          -o save=FILE\n"
    "  --kernel FD     speak to FD in the kernel's place, without MOUNTPOINT; for tests\n";

enum {
    OPTION_SHARED = 256, OPTION_TIMES, OPTION_NO_TIMES, OPTION_WAIT, OPTION_KERNEL,
    OPTION_SESSIONS, OPTION_MAX_SESSIONS, OPTION_DEVICES, OPTION_UIDS, OPTION_GIDS, OPTION_SQUASH,
    OPTION_KEEP, OPTION_VERSION, OPTION_MANIFEST, OPTION_UPPER, OPTION_SAVE, OPTION_SIZE,
    OPTION_LIMIT, OPTION_POLL, OPTION_STATUS, OPTION_STRICT,
};

static const struct option OPTIONS[] = {
    {"foreground", no_argument, NULL, 'f'},
    {"manifest", required_argument, NULL, OPTION_MANIFEST},
    {"upper", required_argument, NULL, OPTION_UPPER},
    {"save", required_argument, NULL, OPTION_SAVE},
    {"size", required_argument, NULL, OPTION_SIZE},
    {"manifest-limit", required_argument, NULL, OPTION_LIMIT},
    {"sessions", required_argument, NULL, OPTION_SESSIONS},
    {"max-sessions", required_argument, NULL, OPTION_MAX_SESSIONS},
    {"shared", no_argument, NULL, OPTION_SHARED},
    {"status", required_argument, NULL, OPTION_STATUS},
    {"strict", no_argument, NULL, OPTION_STRICT},
    {"times", no_argument, NULL, OPTION_TIMES},
    {"no-times", no_argument, NULL, OPTION_NO_TIMES},
    {"devices", no_argument, NULL, OPTION_DEVICES},
    {"map-uids", required_argument, NULL, OPTION_UIDS},
    {"map-gids", required_argument, NULL, OPTION_GIDS},
    {"squash", no_argument, NULL, OPTION_SQUASH},
    {"poll", required_argument, NULL, OPTION_POLL},
    {"wait", required_argument, NULL, OPTION_WAIT},
    {"keep", required_argument, NULL, OPTION_KEEP},
    {"kernel", required_argument, NULL, OPTION_KERNEL},
    {"verbose", no_argument, NULL, 'v'},
    {"version", no_argument, NULL, OPTION_VERSION},
    {"help", no_argument, NULL, 'h'},
    {NULL, 0, NULL, 0},
};

/* What the command line says of times. */
enum { TIMES_UNSAID, TIMES_ON, TIMES_OFF };

struct reading {
    struct options *options;
    struct fuse_args *arguments;
    int times;
};

static bool fail(const char *what, const char *value)
{
    fprintf(stderr, "overlayd-fuse: %s%s%s; overlayd-fuse --help tells more\n", what,
            value ? ": " : "", value ? value : "");
    return false;
}

static bool read_number(const char *text, int64_t least, int64_t most, int64_t *number)
{
    char *end;
    errno = 0;
    *number = strtoll(text, &end, 10);
    return *text >= '0' && *text <= '9' && !*end && !errno && *number >= least && *number <= most;
}

static bool take_number(const char *what, int64_t least, int64_t most, unsigned *to)
{
    int64_t number;
    if (!read_number(optarg, least, most, &number))
        return fail(what, optarg);
    *to = (unsigned)number;
    return true;
}

static bool take_bytes(const char *what, uint64_t *to)
{
    int64_t number;
    if (!read_number(optarg, 1, BYTES_MAX, &number))
        return fail(what, optarg);
    *to = (uint64_t)number;
    return true;
}

static bool take_name(const char *what, const char **to)
{
    if (!*optarg || *to)
        return fail(what, optarg);
    *to = optarg;
    return true;
}

static bool take_kernel(struct options *options)
{
    unsigned number;
    if (!take_number("--kernel is a descriptor", 0, 1 << 20, &number))
        return false;
    options->kernel = (int)number;
    return true;
}

static bool take_place(struct options *options, int option)
{
    switch (option) {
    case OPTION_MANIFEST:
        options->inside = true;
        return take_name("--manifest is one file", &options->source);
    case OPTION_UPPER:
        return take_name("--upper is one file", &options->upper);
    case OPTION_SAVE:
        return take_name("--save is one file", &options->save);
    case OPTION_STATUS:
        return take_name("--status is one file", &options->status);
    case OPTION_SIZE:
        return take_bytes("--size is 1 to 1099511627776", &options->size);
    default:
        return take_bytes("--manifest-limit is 1 to 1099511627776", &options->manifest_limit);
    }
}

static bool take_valued(struct options *options, int option)
{
    switch (option) {
    case OPTION_SESSIONS:
        return take_number("--sessions is 1 to 64", 1, SESSIONS_MAX, &options->sessions);
    case OPTION_MAX_SESSIONS:
        return take_number("--max-sessions is 1 to 64", 1, SESSIONS_MAX, &options->max_sessions);
    case OPTION_WAIT:
        return take_number("--wait is 1 to 3600", 1, SECONDS_MAX, &options->wait);
    case OPTION_KEEP:
        return take_number("--keep is 0 to 3600", 0, SECONDS_MAX, &options->keep);
    case OPTION_POLL:
        return take_number("--poll is 0 to 1000", 0, POLL_MAX, &options->poll);
    case OPTION_UIDS:
        return ids_add(&options->uids, optarg) || fail("--map-uids is INNER:OUTER:COUNT, and no id "
                                                       "is in two", optarg);
    case OPTION_GIDS:
        return ids_add(&options->gids, optarg) || fail("--map-gids is INNER:OUTER:COUNT, and no id "
                                                       "is in two", optarg);
    case OPTION_KERNEL:
        return take_kernel(options);
    default:
        return take_place(options, option);
    }
}

static bool take_option(struct reading *reading, int option)
{
    struct options *options = reading->options;
    switch (option) {
    case 'f':
        options->foreground = true;
        return true;
    case OPTION_SHARED:
        options->shared = true;
        return true;
    case OPTION_STRICT:
        options->strict = true;
        return true;
    case OPTION_TIMES:
        reading->times = TIMES_ON;
        return true;
    case OPTION_NO_TIMES:
        reading->times = TIMES_OFF;
        return true;
    case OPTION_DEVICES:
        options->devices = true;
        return true;
    case OPTION_SQUASH:
        options->uids.squash = options->gids.squash = true;
        options->uids.shown = geteuid();
        options->gids.shown = getegid();
        return true;
    case 'v':
        options->verbose = true;
        return true;
    default:
        return take_valued(options, option);
    }
}

/* Options that fstab(5) has for others, and that say nothing to a file system. */
static bool is_passed_over(const char *word)
{
    static const char *const words[] = {"defaults", "auto", "noauto", "user", "nouser", "users",
                                        "owner", "group", "nofail", "_netdev", ""};
    size_t i = 0;
    while (i < sizeof words / sizeof *words && strcmp(words[i], word) != 0)
        i++;
    return i < sizeof words / sizeof *words || strncmp(word, "x-", 2) == 0
        || strncmp(word, "comment=", 8) == 0;
}

/* One option of -o: ours, by its long name, or the mount's. It stays where it is, since what it
   names is used later. */
static bool take_word(struct reading *reading, char *word)
{
    char *value = strchr(word, '=');
    size_t length = value ? (size_t)(value - word) : strlen(word);
    for (const struct option *option = OPTIONS; option->name; option++) {
        bool is_it = strlen(option->name) == length && memcmp(option->name, word, length) == 0
            && option->val != 'h' && option->val != OPTION_VERSION;
        if (!is_it)
            continue;
        if ((option->has_arg == required_argument) != (value != NULL))
            return fail(value ? "this option has no value" : "a value is missing", word);
        optarg = value ? value + 1 : NULL;
        return take_option(reading, option->val);
    }
    return is_passed_over(word) || (fuse_opt_add_arg(reading->arguments, "-o") == 0
                                    && fuse_opt_add_arg(reading->arguments, word) == 0);
}

static bool take_words(struct reading *reading, char *words)
{
    char *word;
    while ((word = strsep(&words, ",")))
        if (!take_word(reading, word))
            return false;
    return true;
}

static bool take(struct reading *reading, char **words, int option)
{
    if (option == 'o')
        return take_words(reading, optarg);
    if (option == '?')
        return fail("no such option", words[optind - 1]);
    if (option == ':')
        return fail("a value is missing", words[optind - 1]);
    return take_option(reading, option);
}

/* In the background the bridge has another working directory. */
static const char *absolute(const char *path, char *room, size_t most)
{
    char found[PATH_MAX];
    if (!realpath(path, found) || strlen(found) >= most)
        return path;
    return strcpy(room, found);
}

static bool judge(struct reading *reading)
{
    struct options *options = reading->options;
    options->sessions = options->inside ? 1 : options->sessions;
    if (options->sessions > options->max_sessions)
        return fail("--sessions is at most --max-sessions", NULL);
    if (options->uids.squash && (options->uids.count || options->gids.count))
        return fail("--squash doesn't go with --map-uids and --map-gids", NULL);
    if (options->inside && options->shared)
        return fail("--shared is for a mount that a server serves to others too", NULL);
    if (!options->inside && (options->upper || options->save || options->size))
        return fail("--upper, --save and --size go with --manifest", NULL);
    if (options->inside ? options->status || options->strict
        : options->strict && !options->status)
        return fail("--strict goes with --status, and both with a server", NULL);
    options->times = reading->times == TIMES_ON
        || (options->inside && reading->times == TIMES_UNSAID);
    options->keep = options->inside ? 0 : options->keep;
    return true;
}

static bool take_places(int count, char **words, struct options *options)
{
    enum { SOCKET_MAX = 108 };
    int wanted = (options->inside ? 0 : 1) + (options->kernel < 0 ? 1 : 0);
    if (count - optind != wanted)
        return fail("SOCKET, or --manifest FILE, and MOUNTPOINT are needed, and nothing else",
                    NULL);
    if (options->inside)
        options->source = absolute(options->source, options->places[0], PATH_BYTES);
    else
        options->source = absolute(words[optind], options->places[0], SOCKET_MAX);
    if (options->kernel < 0)
        options->mountpoint = absolute(words[count - 1], options->places[1], PATH_BYTES);
    return true;
}

bool read_options(int count, char **words, struct options *options, struct fuse_args *arguments,
                  int *status)
{
    int option;
    struct reading reading = {options, arguments, TIMES_UNSAID};
    *options = (struct options){.sessions = SESSIONS, .max_sessions = SESSIONS_MAX, .wait = WAIT,
                                .keep = KEEP, .kernel = -1, .manifest_limit = (uint64_t)BYTES};
    *status = STATUS_USAGE;
    opterr = 0;
    while ((option = getopt_long(count, words, ":o:vhf", OPTIONS, NULL)) != -1) {
        if (option == 'h' || option == OPTION_VERSION) {
            fputs(option == 'h' ? USAGE : "overlayd-fuse " VERSION "\n", stdout);
            *status = 0;
            return false;
        }
        if (!take(&reading, words, option))
            return false;
    }
    return judge(&reading) && take_places(count, words, options);
}
