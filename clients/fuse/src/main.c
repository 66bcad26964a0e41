/* overlayd-fuse: shows a mount as a file system of this machine. The engine of the mount runs here,
   or in `overlayd serve`. */
#include "options.h"

#include <stdio.h>
#include <string.h>
#include <unistd.h>

/* The beginning of 1980, which no format of archives refuses. */
static const struct timespec LONG_AGO = {.tv_sec = 315532800};

enum { STATUS_FAILED = 1, STATUS_USAGE = 2 };

static int serve(struct bridge *bridge)
{
    int status = fuse_session_loop(bridge->session) < 0 ? STATUS_FAILED : 0;
    if (bridge->kernel.unsaved) {
        tell(bridge, "%s: what was written last may be lost: the kernel could not write all that "
             "it held back", bridge->options.mountpoint);
        status = STATUS_FAILED;
    }
    return status;
}

static int run(struct bridge *bridge, struct fuse_args *arguments)
{
    struct fuse_lowlevel_ops operations = {0};
    looking_operations(&operations);
    setting_operations(&operations);
    making_operations(&operations);
    moving_operations(&operations);
    file_operations(&operations);
    listing_operations(&operations);
    xattr_operations(&operations);
    bridge->session = fuse_session_new(arguments, &operations, sizeof operations, bridge);
    if (!bridge->session)
        return STATUS_USAGE;
    bool begun = kernel_begin(bridge);
    int status = begun ? serve(bridge) : STATUS_FAILED;
    kernel_end(bridge);
    if (begun && !save(bridge))
        status = STATUS_FAILED;
    fuse_session_destroy(bridge->session);
    return status;
}

static bool begin(struct bridge *bridge)
{
    bridge->epoch = 1;
    bridge->transport = bridge->options.inside ? &inside_transport : &socket_transport;
    bridge->began = bridge->options.times ? LONG_AGO : now();
    if (!nodes_begin(bridge)) {
        fputs("overlayd-fuse: out of memory\n", stderr);
        return false;
    }
    return (!bridge->options.inside || inside_begin(bridge)) && connections_begin(bridge)
        && history_judged(bridge);
}

static void end(struct bridge *bridge)
{
    if (bridge->options.verbose)
        fprintf(stderr, "overlayd-fuse: %llu requests in %llu round trips\n",
                (unsigned long long)bridge->frames, (unsigned long long)bridge->trips);
    connections_end(bridge);
    handles_end(bridge);
    nodes_end(bridge);
    inside_end(bridge);
}

/* A mount of a manifest has its name, so that mount(8) knows it by fstab(5). */
static bool add_name(struct fuse_args *arguments, const struct options *options)
{
    char text[2 * PATH_BYTES + 16] = "-ofsname=";
    char *to = text + strlen(text);
    if (!options->inside)
        return fuse_opt_insert_arg(arguments, 1, "-ofsname=overlayd") == 0;
    for (const char *at = options->source; *at && to < text + sizeof text - 3; at++) {
        if (*at == ',' || *at == '\\')
            *to++ = '\\';
        *to++ = *at;
    }
    *to = 0;
    return fuse_opt_insert_arg(arguments, 1, text) == 0;
}

/* The kernel checks permissions by the modes and owners that it is told. */
static bool add_defaults(struct fuse_args *arguments, const struct options *options)
{
    const char *defaults = geteuid() == 0
        ? "-odefault_permissions,subtype=overlayd,allow_other"
        : "-odefault_permissions,subtype=overlayd";
    return add_name(arguments, options) && fuse_opt_insert_arg(arguments, 1, defaults) == 0;
}

int main(int count, char **words)
{
    static struct bridge bridge;
    struct fuse_args arguments = FUSE_ARGS_INIT(0, NULL);
    char *room[HELPER_WORDS];
    int status = STATUS_FAILED;
    if (is_helper(words[0])) {
        count = helper_words(count, words, room);
        words = room;
    }
    if (fuse_opt_add_arg(&arguments, words[0]) == 0
        && read_options(count, words, &bridge.options, &arguments, &status)) {
        status = STATUS_FAILED;
        if (add_defaults(&arguments, &bridge.options) && begin(&bridge))
            status = run(&bridge, &arguments);
        end(&bridge);
    }
    fuse_opt_free_args(&arguments);
    return status;
}
