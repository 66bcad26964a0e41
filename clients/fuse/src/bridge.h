/* The bridge: all that it knows stands in one struct, which its files share. */
#ifndef BRIDGE_H
#define BRIDGE_H

#include "frames.h"

#include <sys/stat.h>
#include <sys/statvfs.h>
#include <sys/types.h>
#include <time.h>

#define FUSE_USE_VERSION 35
#include <fuse_lowlevel.h>

/* The engine as a library, where the bridge is built with it. */
#ifdef WITH_ENGINE
#include <overlayd.h>
#endif

enum { SESSIONS_MAX = 64, ROOT = FUSE_ROOT_ID };

/* Attributes that begin so are the bridge's own: in one times and kinds are kept that the server
   doesn't know, and in others what programs know by another class of names. */
#define OWN "user.overlayd."
#define META OWN "meta"
#define OTHER OWN "xattr."

enum { RANGES_MAX = 16 };

/* Ids that the engine has, from `inner` on, and as which they are shown. */
struct range {
    uint32_t inner, outer, count;
};
struct ids {
    struct range ranges[RANGES_MAX];
    unsigned count;            /* without a range each id is shown as it is */
    bool squash;               /* all are shown as `shown`, and made as 0 */
    uint32_t shown;
};

struct options {
    const char *source, *mountpoint;  /* what is shown: a server's socket, or a manifest */
    bool inside;                 /* it is a manifest: the engine runs in this process */
    const char *upper, *save;    /* of a mount inside, or NULL */
    const char *status;          /* what the server's --status writes, or NULL */
    bool strict;                 /* nothing is mounted where that tells of a history */
    uint64_t manifest_limit;     /* bytes of the manifest and of what it names */
    uint64_t size;               /* bytes that a mount inside may grow by, or 0 */
    unsigned sessions, max_sessions, wait, keep;
    unsigned poll;               /* microseconds in which it asks again before it sleeps */
    bool shared, times, devices, foreground, verbose;
    struct ids uids, gids;
    char places[2][PATH_BYTES];  /* room for source and mountpoint */
    int kernel;  /* a descriptor that is spoken to in the kernel's place, or -1 */
};

/* Where an object lies: its number in one of the layers, of which the upper is the first. Other
   objects never share it at one time; a copy-up changes it. */
struct place {
    size_t layer, key;
};

struct bridge;
struct connection;

/* How a connection's requests get to the engine, and its replies back. */
struct transport {
    /* Makes a connection; an error number where there is none. */
    int (*open)(struct bridge *bridge, struct connection *connection);
    /* Whether an open one can be asked. */
    bool (*ready)(struct bridge *bridge, struct connection *connection);
    /* Has the batch answered, and its replies judged; false where they aren't right. */
    bool (*exchange)(struct bridge *bridge, struct connection *connection);
    void (*drop)(struct bridge *bridge, struct connection *connection);
    bool is_near;  /* a request costs next to nothing, so none is kept back */
    /* Bytes without a frame, from where a descriptor stands, up to PIECE_MAX of them; an error
       number, or 0. Not over a socket. */
    int (*read)(struct bridge *bridge, const struct connection *connection, uint32_t descriptor,
                void *bytes, size_t length, size_t *count);
    int (*write)(struct bridge *bridge, const struct connection *connection, uint32_t descriptor,
                 const void *bytes, size_t length, size_t *count);
    /* Where an object lies; false where that isn't told, as over a socket. */
    bool (*place)(struct bridge *bridge, const char *path, struct place *place);
};
extern const struct transport socket_transport, inside_transport;

/* A connection to the engine, which is a client of its own there. */
struct connection {
    bool is_open;
    bool is_fresh;        /* it was asked something since it was last looked after */
    bool is_served;       /* it was answered */
    int socket;           /* of the transport over a socket */
    uint64_t client;      /* its number, of the transport inside */
    unsigned wait;        /* as the socket was told it */
    unsigned generation;  /* how often it ended */
    uint64_t used;        /* descriptors of the server that are open, a bit for each */
    uint64_t closing;     /* those of them that are closed with the next request */
    uint64_t expected;    /* `used` as it will be after the batch */
    uint32_t users[DESCRIPTORS];  /* for whom each of them was opened */
};

struct times {
    struct timespec access, change, status;
};

/* A file, directory or link, for as long as the kernel or the bridge has to know it. */
struct node {
    uint64_t number, lookups;
    uint64_t shown;           /* its inode number */
    struct place place;       /* where it lay when its inode number was made */
    bool has_place;
    bool is_linked;           /* it had several names then */
    struct node *of_place;    /* the next of the same slot of places */
    struct node *next;        /* of the same slot */
    struct name *names;       /* where it stands; none once it was removed */
    struct name *children;    /* of a directory: the names that are known in it */
    struct handle *handles;   /* on it */
    struct opened *opened;    /* where the engine has it open */
    struct listing *listing;  /* of a directory, as it was last taken */
    struct kept *kept;        /* the attributes of what has no name any more */
    struct link_times *link_times;  /* of a directory: of the links in it, or NULL */
    struct attr attr;         /* as it was last told or changed */
    unsigned sure;            /* the epoch in which `attr` is true, or 0 */
    bool touched;             /* known to be in the upper layer */
    bool written;             /* known to have its bytes there */
    bool fetched;             /* the kernel has read from it */
    unsigned bare;            /* the epoch in which it has no attribute to be shown, or 0 */
    bool has_times, has_owner, has_mode;
    bool is_doomed;           /* its names are just being let go */
    struct node *doomed;      /* the next such node */
    struct times times;       /* where has_times */
    mode_t special;           /* S_IFIFO and such, or 0 */
    dev_t device;
};

/* One name of a node, in a directory. */
struct name {
    struct node *parent, *node;
    struct name *next;             /* of the same slot */
    struct name *of_node;          /* the next name of the node */
    struct name *before, *after;   /* among the names in the parent */
    uint64_t hash;
    char text[];
};

struct nodes {
    struct node **by_number;
    struct name **by_name;
    size_t number_slots, name_slots, node_count, name_count;
    struct places *places;
    uint64_t last_number;
    uint64_t key[2];           /* of the hashes, which nobody else knows */
};

/* A file that the engine has open, for all handles on a node that have that access. */
struct opened {
    struct opened *next;       /* on the same node */
    unsigned handles;
    unsigned access;           /* OPEN_READ, OPEN_WRITE or OPEN_BOTH */
    bool appends;
    bool lost;                 /* it has no descriptor any more */
    struct connection *connection;
    unsigned generation;       /* of the connection, when it was opened */
    uint32_t descriptor;
    uint64_t place;            /* at which the engine stands, or PLACE_UNKNOWN */
    struct node *node;         /* where opens aren't told: whose it is, */
    struct opened *newer, *older;  /* and those used before and after it */
    bool is_listed;
};

/* What is open though the kernel doesn't tell opens, in the order of its last use. */
struct untold {
    bool is_on;
    struct opened *newest, *oldest;
    unsigned count;
};

/* What the kernel has open. */
struct handle {
    struct node *node;
    struct handle *next;       /* on the same node */
    size_t number;             /* in the table of handles */
    uint32_t uid;              /* who opened it */
    bool changed;              /* the file was, by this handle */
    struct opened *opened;     /* of a file */
    char *ahead;               /* bytes from the beginning, read with the open */
    size_t ahead_length;
    bool ahead_whole;          /* they are the whole file */
    uint64_t ahead_changes;    /* how many changes there were then */
    struct listing *listing;   /* of a directory */
};

#define PLACE_UNKNOWN UINT64_MAX

/* The kernel's side: what it asks just now, and how serving it ends. */
struct kernel {
    uint32_t caller;            /* the user who asks */
    bool kills;                 /* the kernel says that set-user-ID bits go with this request */
    bool tells_kills;           /* it says so wherever it has to be */
    bool offers_kills;          /* it could */
    uint64_t init;              /* the number of the request that began all */
    int signals;                /* a descriptor that tells signals, or -1 */
    int64_t next_care;          /* when connections are looked after next, in milliseconds */
    int64_t next_turn;          /* when signals are looked at, though requests come */
    pid_t syncer;               /* a process that has the kernel write all that it holds, or 0 */
    bool sleeps;                /* it waits in the read of a request */
    bool drains, unsaved, in_background;
    int64_t last;               /* when it ends, though the kernel still asks, in milliseconds */
};

/* Where the upper is saved in the end: a name in a directory, which is open from the beginning. */
struct saving {
    int directory;
    const char *name;
};

/* The memory of a mount in this process. */
struct space {
    uint64_t first;    /* bytes that were taken when it was mounted */
    uint64_t spare;    /* bytes that may be asked for before it is counted anew */
};
enum { SPACE_OBJECT = 1024 };  /* about what an object or a change takes */

struct bridge {
    struct options options;
#ifdef WITH_ENGINE
    ovl_mount engine;
#endif
    struct saving saving;
    struct space space;
    const struct transport *transport;
    unsigned wait;              /* seconds that an answer may take now */
    struct connection connections[SESSIONS_MAX];
    unsigned attached;          /* how many connections there are, from the first on */
    time_t next_attach;         /* before which no further one is tried */
    struct connection *asked;   /* the connection of the batch */
    bool told_full;             /* that the server's history is full */
    bool no_worker;             /* the server says that it has no free worker */
    struct kernel kernel;
    struct untold untold;
    struct batch batch;
    struct nodes nodes;
    struct handle **handles;    /* by number; a free one is NULL */
    size_t handle_room, handle_free;  /* none below `handle_free` is free */
    unsigned epoch;             /* rises when a connection ends */
    uint64_t changes;           /* made by the bridge */
    size_t listed;              /* bytes of all listings that are kept */
    size_t ahead;               /* bytes that are read ahead, of all handles */
    uint64_t frames, trips;
    struct timespec began;      /* the time of what was never changed */
    struct fuse_session *session;
    char path[PATH_BYTES], other[PATH_BYTES];
};

/* connections.c */
bool connections_begin(struct bridge *bridge);
void connections_end(struct bridge *bridge);
/* What doesn't answer right isn't asked again: it is made anew, and what was open on it is lost. */
void connection_drop(struct bridge *bridge, struct connection *connection);
/* Asks each connection that was silent, so that the server doesn't end it. */
void connections_care(struct bridge *bridge);
/* Begins a batch on any connection, on one, or on one with a free descriptor: for a file that stays
   open for the caller, or for what the batch itself closes again. */
int ask_any(struct bridge *bridge);
int ask_on(struct bridge *bridge, struct connection *connection);
int ask_for_open(struct bridge *bridge);
int ask_for_moment(struct bridge *bridge);
/* An open and a close on the connection of the batch. */
size_t ask_opening(struct bridge *bridge, unsigned flags, uint32_t mode, const char *path,
                   uint32_t *descriptor);
void ask_closing(struct bridge *bridge, uint32_t descriptor);
/* Sends the batch and takes the replies; EIO where they aren't right. */
int ask_end(struct bridge *bridge);
/* Why the request of this number was refused, or 0. */
int refused(const struct bridge *bridge, size_t number);
int64_t milliseconds(void);

/* history.c */
/* Whether to mount; a line tells what the server's --status says of a history. */
bool history_judged(const struct bridge *bridge);

/* inside.c */
/* The engine in this process; a line tells why it can't be. */
bool inside_begin(struct bridge *bridge);
void inside_end(struct bridge *bridge);

/* saving.c */
/* Whether the upper can be saved where it has to be; a line tells why not. */
bool saving_begin(struct bridge *bridge);
/* Saves it, where that is asked for; whether all of it was. */
bool save(struct bridge *bridge);

/* space.c */
void space_begin(struct bridge *bridge);
/* ENOSPC where so many bytes more, and an object, would be more than --size says. */
int space_for(struct bridge *bridge, uint64_t bytes);
/* The same for a file that is to have this size in the upper. */
int space_for_bytes(struct bridge *bridge, const struct node *node, uint64_t size);
void space_told(const struct bridge *bridge, struct statvfs *stat);

/* kernel.c */
bool kernel_begin(struct bridge *bridge);
void kernel_end(struct bridge *bridge);

/* notify.c */
/* Tells systemd, where that waits for it. */
void notify(const char *text);
/* Tells a line on standard error, or in the background to the system's log. */
void tell(const struct bridge *bridge, const char *format, ...)
    __attribute__((format(printf, 2, 3)));

/* ids.c */
bool ids_add(struct ids *ids, const char *text);
uint32_t shown_id(const struct ids *ids, uint32_t inner);
bool inner_id(const struct ids *ids, uint32_t outer, uint32_t *inner);

/* siphash.c */
uint64_t siphash(const uint64_t key[2], uint64_t first, const char *text, size_t length);

/* nodes.c */
bool nodes_begin(struct bridge *bridge);
void nodes_end(struct bridge *bridge);
struct node *node_of(struct bridge *bridge, uint64_t number);
struct node *node_at(struct bridge *bridge, const struct node *parent, const char *name);
/* The node for what was found at a name: the one that is known there, or a new one. */
struct node *node_found(struct bridge *bridge, struct node *parent, const char *name,
                        const struct attr *attr);
struct node *node_new(struct bridge *bridge);
bool node_name(struct bridge *bridge, struct node *parent, const char *name, struct node *node);
void node_unname(struct bridge *bridge, struct node *parent, const char *name);
void node_forget(struct bridge *bridge, struct node *node, uint64_t lookups);
void node_settle(struct bridge *bridge, struct node *node);
/* The path of a node, or of a name in it; an error number where it has none. */
int path_of(const struct node *node, char *path);
int path_in(const struct node *parent, const char *name, char *path);
unsigned names_of(const struct node *node);

/* places.c */
bool places_begin(struct bridge *bridge);
void places_end(struct bridge *bridge);
/* The node for what was found or made there, at a name that isn't known: a new one, or that of
   another name of the same file of the upper. */
struct node *place_found(struct bridge *bridge, const struct node *parent, const char *name,
                         const struct attr *attr);
/* What was made there is new, whatever lay at its place before. */
void place_made(struct bridge *bridge, struct node *node);
/* The file lies in the upper now. */
void place_touched(struct bridge *bridge, struct node *node);
/* Before the node goes: its inode number stays that of the object, also where it was copied up. */
void place_left(struct bridge *bridge, struct node *node);

/* attributes.c */
struct look {
    size_t stat, meta;
    bool has_meta;
};
struct meta {
    bool is_there;
    struct times times;
    mode_t special;
    dev_t device;
};
struct look ask_look(struct bridge *bridge, const char *path, bool meta);
bool wants_meta(const struct bridge *bridge, const struct node *node);
struct meta meta_of(const struct bridge *bridge, struct look look);
void node_see_meta(const struct bridge *bridge, struct node *node, const struct meta *meta);
void node_see(struct bridge *bridge, struct node *node, const struct attr *attr);
bool is_sure(const struct bridge *bridge, const struct node *node);
void stat_of(const struct bridge *bridge, const struct node *node, struct stat *stat);
struct timespec now(void);
/* An object is new; its bytes or names changed; something else of it did. */
void times_new(struct node *node);
void times_changed(struct bridge *bridge, struct node *node);
void times_status(struct bridge *bridge, struct node *node);
void keep_meta(struct bridge *bridge, struct node *node);
double timeout_of(const struct bridge *bridge, const struct node *node);
void reply_entry(fuse_req_t request, struct bridge *bridge, struct node *node);
void entry_of(const struct bridge *bridge, const struct node *node,
              struct fuse_entry_param *entry);

/* link_times.c */
/* What a directory says of the links in it, where that isn't known. */
void link_times_look(struct bridge *bridge, struct node *directory);
void link_times_free(struct link_times *times);
/* The directory's attributes are others now. */
void link_times_doubt(struct node *directory);
/* What was found at a name, where it is a link, has the time that is known there, or looked for. */
void link_time_see(const struct bridge *bridge, const struct node *directory, const char *name,
                   struct node *node);
void link_time_look(struct bridge *bridge, struct node *directory, const char *name,
                    struct node *node);
/* The time that is kept with a link, where it has one. */
bool link_time_of(struct bridge *bridge, const struct node *node, struct timespec *time);
/* A link at this name has that time, or without one none that is kept; it is written with the
   directory's own. */
void link_time_note(struct bridge *bridge, struct node *directory, const char *name,
                    const struct timespec *time);
void ask_link_times(struct bridge *bridge, struct node *directory, const char *path);
/* A link's time is written where its names are. */
void keep_link_time(struct bridge *bridge, const struct node *node);

/* handles.c */
struct handle *handle_new(struct bridge *bridge, struct node *node);
struct handle *handle_of(struct bridge *bridge, const struct fuse_file_info *info);
void handle_free(struct bridge *bridge, struct handle *handle);
void handles_end(struct bridge *bridge);

/* opened.c */
/* One that new handles with these flags may share, or none. */
struct opened *opened_for(const struct bridge *bridge, const struct node *node, unsigned flags);
/* A new one, by the descriptor that the batch has opened. */
struct opened *opened_new(struct bridge *bridge, struct node *node, unsigned flags,
                          uint32_t descriptor);
void opened_release(struct bridge *bridge, struct node *node, struct opened *opened);
bool is_alive(const struct opened *opened);
int ask_opened(struct bridge *bridge, const struct opened *opened);
/* One of the node that can be used, for writing where it has to be. */
struct opened *live_opened(const struct node *node, bool writes);
/* Notes that the node is in the upper layer, and opens anew what was opened before that. */
void node_touched(struct bridge *bridge, struct node *node);
void node_written(struct bridge *bridge, struct node *node);
unsigned open_flags(const struct bridge *bridge, int flags);

/* A node goes, and what is open of it. */
void opened_end(struct bridge *bridge, struct node *node);

/* untold.c */
/* Whether opens needn't be told, where the kernel can do without. */
void untold_begin(struct bridge *bridge);
/* By which a file is read or written; an error number where there is none. */
int untold_open(struct bridge *bridge, struct node *node, bool writes, struct opened **opened);
/* Before a file is opened: what was used longest ago is closed where there are many. */
void untold_room(struct bridge *bridge);
/* What was opened as it was made. */
void untold_new(struct bridge *bridge, struct node *node, struct opened *opened);
/* Before the last name of a node goes. */
int untold_hold(struct bridge *bridge, struct node *node);
void untold_leave(struct bridge *bridge, struct opened *opened);

/* asleep.c */
/* From now on the read of a request waits for it, until a signal comes. */
void asleep_begin(struct bridge *bridge, int descriptor);
/* The read; EINTR where a signal has ended the waiting. */
ssize_t read_asleep(struct bridge *bridge, int descriptor, void *buffer, size_t room);

/* privileges.c */
/* Whether a change of bytes, as it is asked for, takes set-user-ID bits; and taking them. */
bool takes_bits(const struct bridge *bridge);
int take_bits(struct bridge *bridge, struct node *node);
/* Asks with a change of bytes that a capability goes; its refusal says nothing. */
void ask_no_capability(struct bridge *bridge, struct node *node);
uint32_t without_bits(uint32_t mode);

/* kept.c */
int keep_attributes(struct bridge *bridge, const struct node *node, struct kept **kept);
void kept_free(struct kept *kept);
int kept_get(const struct kept *kept, const char *name, const char **value, size_t *length);
int kept_set(struct node *node, const char *name, const char *value, size_t length);
int kept_remove(struct node *node, const char *name);
/* The next name from a place on, which it moves, or none. */
const char *kept_next(const struct kept *kept, size_t *at);

/* xattrs.c */
/* UTF-8 as a manifest has it. */
bool is_utf8(const char *bytes, size_t length);
/* Whether it is known that there is no attribute to be shown, so that nobody has to be asked. */
bool is_bare(const struct bridge *bridge, const struct node *node);

/* ahead.c */
void ask_ahead(struct bridge *bridge, struct node *node, uint32_t descriptor);
void take_ahead(struct bridge *bridge, struct handle *handle, size_t first);
bool reply_ahead(fuse_req_t request, struct bridge *bridge, struct handle *handle, size_t size,
                 uint64_t offset);
void ahead_free(struct bridge *bridge, struct handle *handle);

/* listings.c */
void listing_release(struct bridge *bridge, struct listing *listing);

/* The operations, by file. */
void looking_operations(struct fuse_lowlevel_ops *operations);
void setting_operations(struct fuse_lowlevel_ops *operations);
void making_operations(struct fuse_lowlevel_ops *operations);
void moving_operations(struct fuse_lowlevel_ops *operations);
void file_operations(struct fuse_lowlevel_ops *operations);
void listing_operations(struct fuse_lowlevel_ops *operations);
void xattr_operations(struct fuse_lowlevel_ops *operations);

static inline struct bridge *bridge_of(fuse_req_t request)
{
    return fuse_req_userdata(request);
}

#endif
