/* The operations on attributes. Those of the classes `security.` and `trusted.` are kept under
   names of the bridge's own among the user attributes, since the engine has no others; and so are
   those of the class `user.` whose values no manifest can say, where the upper is the bridge's to
   save: such a name is that one's twin, and never are both there. */
#include "bridge.h"

#include <errno.h>
#include <string.h>
#include <sys/xattr.h>

/* A value of another class is kept by two digits for each byte, within the engine's 1,024. */
enum { LIST_MAX = 64 * 256, NAME_BYTES = 256, OTHER_BYTES = 512 };

/* An attribute that is asked for. */
struct asked {
    struct node *node;
    char name[NAME_BYTES];  /* as the engine has it */
    bool is_other;
};

static bool begins(const char *text, const char *with)
{
    return strncmp(text, with, strlen(with)) == 0;
}

/* A mount has no labels: who asks for one, as `ls -l` of each file, is told so once for all. */
static bool is_other(const char *name)
{
    bool is_label = strcmp(name, "security.selinux") == 0;
    return (begins(name, "security.") && !is_label) || begins(name, "trusted.");
}

/* Access lists, and classes that nobody knows, are refused; what the bridge keeps for itself is
   nobody else's, which is refused by `at_own`. */
static int take_name(struct asked *asked, const char *name, int at_own)
{
    const char *prefix = is_other(name) ? OTHER : "";
    if (!*prefix && !begins(name, "user."))
        return EOPNOTSUPP;
    if (begins(name, OWN))
        return at_own;
    if (strlen(prefix) + strlen(name) >= sizeof asked->name)
        return at_own == EPERM ? ENOSPC : ENODATA;
    strcpy(asked->name, prefix);
    strcat(asked->name, name);
    asked->is_other = *prefix;
    return 0;
}

static void to_digits(const char *bytes, size_t length, char *digits)
{
    for (size_t i = 0; i < length; i++) {
        digits[2 * i] = "0123456789abcdef"[(unsigned char)bytes[i] >> 4];
        digits[2 * i + 1] = "0123456789abcdef"[bytes[i] & 15];
    }
}

static int digit_of(char digit)
{
    if (digit >= '0' && digit <= '9')
        return digit - '0';
    return digit >= 'a' && digit <= 'f' ? digit - 'a' + 10 : -1;
}

/* A value of another form is as none. */
static bool from_digits(const char *digits, size_t length, char *bytes)
{
    bool fits = length % 2 == 0 && length <= 2 * OTHER_BYTES;
    for (size_t i = 0; fits && i < length / 2; i++) {
        int high = digit_of(digits[2 * i]), low = digit_of(digits[2 * i + 1]);
        fits = high >= 0 && low >= 0;
        if (fits)
            bytes[i] = (char)(high << 4 | low);
    }
    return fits;
}

/* Twins. */

static size_t follow_of(unsigned char byte)
{
    return byte < 0x80 ? 0 : byte >= 0xc2 && byte < 0xe0 ? 1 : byte >= 0xe0 && byte < 0xf0 ? 2
        : byte >= 0xf0 && byte < 0xf5 ? 3 : SIZE_MAX;
}

/* The shortest form, no surrogates, nothing beyond U+10FFFF. */
bool is_utf8(const char *bytes, size_t length)
{
    const unsigned char *at = (const unsigned char *)bytes;
    for (size_t i = 0, follow; i < length; i += 1 + follow) {
        follow = follow_of(at[i]);
        if (follow > length - i - 1)
            return false;
        for (size_t k = 1; k <= follow; k++)
            if ((at[i + k] & 0xc0) != 0x80)
                return false;
        bool is_wrong = (at[i] == 0xe0 && at[i + 1] < 0xa0) || (at[i] == 0xed && at[i + 1] > 0x9f)
            || (at[i] == 0xf0 && at[i + 1] < 0x90) || (at[i] == 0xf4 && at[i + 1] > 0x8f);
        if (is_wrong)
            return false;
    }
    return true;
}

static bool twin_of(const struct bridge *bridge, const struct asked *asked, struct asked *twin)
{
    if (!bridge->transport->is_near || asked->is_other
        || strlen(OTHER) + strlen(asked->name) >= sizeof twin->name)
        return false;
    *twin = (struct asked){.node = asked->node, .is_other = true};
    strcpy(twin->name, OTHER);
    strcat(twin->name, asked->name);
    return true;
}

bool is_bare(const struct bridge *bridge, const struct node *node)
{
    return node->bare == bridge->epoch && is_sure(bridge, node);
}

static bool is_nameless(const struct node *node)
{
    return !node->names && node->number != ROOT;
}

static int begin_batch(struct bridge *bridge, const struct node *node)
{
    int fault = path_of(node, bridge->path);
    return fault ? fault : ask_any(bridge);
}

/* More bytes or attributes than the server takes are no room, as setxattr(2) says it. */
static int as_xattr(int fault)
{
    return fault == EFBIG ? ENOSPC : fault;
}

static void note_names(struct bridge *bridge, struct node *node, size_t list)
{
    const char *name;
    size_t length;
    struct names names = answer_names(&bridge->batch, list);
    node->bare = bridge->epoch;
    while ((name = next_name(&names, &length)))
        if (length != strlen(META) || memcmp(name, META, length) != 0)
            node->bare = 0;
}

/* A value, which stands until the next batch. All names are asked for with it, since mostly there
   are none. */
static int get(struct bridge *bridge, const struct asked *asked, const char **value,
               size_t *length)
{
    struct node *node = asked->node;
    if (is_nameless(node))
        return kept_get(node->kept, asked->name, value, length);
    if (node->attr.kind == KIND_LINK || is_bare(bridge, node))
        return ENODATA;
    int fault = begin_batch(bridge, node);
    if (fault)
        return fault;
    size_t get = ask_two(&bridge->batch, OP_GETATTR, bridge->path, asked->name);
    size_t list = is_sure(bridge, node) ? ask_path(&bridge->batch, OP_ATTRS, bridge->path) : get;
    fault = ask_end(bridge);
    if (!fault && list != get && !refused(bridge, list))
        note_names(bridge, node, list);
    if (!fault)
        fault = refused(bridge, get);
    if (!fault)
        *value = answer_text(&bridge->batch, get, length);
    return fault;
}

/* The value as it is shown, for which there may be need of room. */
static int get_shown(struct bridge *bridge, const struct asked *asked, char *room,
                     const char **value, size_t *length)
{
    struct asked twin;
    bool is_digits = asked->is_other;
    int fault = get(bridge, asked, value, length);
    if (fault == ENODATA && twin_of(bridge, asked, &twin)) {
        is_digits = true;
        fault = get(bridge, &twin, value, length);
    }
    if (fault || !is_digits)
        return fault;
    fault = from_digits(*value, *length, room) ? 0 : ENODATA;
    *value = room;
    *length /= 2;
    return fault;
}

static int must_be(struct bridge *bridge, const struct asked *asked, int flags)
{
    char room[OTHER_BYTES];
    const char *value;
    size_t length;
    int fault = get_shown(bridge, asked, room, &value, &length);
    if (fault && fault != ENODATA)
        return fault;
    if (fault ? flags & XATTR_REPLACE : flags & XATTR_CREATE)
        return fault ? ENODATA : EEXIST;
    return 0;
}

static int set(struct bridge *bridge, const struct asked *asked, const char *value, size_t size)
{
    struct node *node = asked->node;
    if (is_nameless(node))
        return kept_set(node, asked->name, value, size);
    if (node->attr.kind == KIND_LINK && begins(asked->name, OTHER))
        return EOPNOTSUPP;
    int fault = begin_batch(bridge, node);
    if (fault)
        return fault;
    size_t change = ask_setattr(&bridge->batch, bridge->path, asked->name, value, size);
    node->bare = 0;
    fault = ask_end(bridge);
    return fault ? fault : refused(bridge, change);
}

static int drop(struct bridge *bridge, const struct asked *asked)
{
    struct node *node = asked->node;
    if (is_nameless(node))
        return kept_remove(node, asked->name);
    if (is_bare(bridge, node))
        return ENODATA;
    int fault = begin_batch(bridge, node);
    if (fault)
        return fault;
    size_t change = ask_two(&bridge->batch, OP_DELATTR, bridge->path, asked->name);
    fault = ask_end(bridge);
    return fault ? fault : refused(bridge, change);
}

static void note_change(struct bridge *bridge, struct node *node)
{
    times_status(bridge, node);
    if (is_nameless(node))
        return;
    node_touched(bridge, node);
    link_times_doubt(node);
    keep_meta(bridge, node);
}

/* What a manifest can't say goes to the twin, and the other of the two goes. */
static int set_one(struct bridge *bridge, struct asked *asked, const char *value, size_t size)
{
    char digits[2 * OTHER_BYTES];
    struct asked twin, other = *asked;
    bool has_twin = twin_of(bridge, asked, &twin);
    bool is_said = !has_twin || is_nameless(asked->node) || is_utf8(value, size);
    other = is_said ? twin : *asked;
    if (!is_said)
        *asked = twin;
    if (size > (asked->is_other ? OTHER_BYTES : UINT16_MAX))
        return ENOSPC;
    if (asked->is_other) {
        to_digits(value, size, digits);
        value = digits;
        size *= 2;
    }
    bool has_none = is_bare(bridge, asked->node);
    int fault = set(bridge, asked, value, size);
    if (!fault && has_twin && !has_none)
        drop(bridge, &other);
    return fault;
}

static void do_setxattr(fuse_req_t request, fuse_ino_t number, const char *name,
                        const char *value, size_t size, int flags)
{
    struct bridge *bridge = bridge_of(request);
    struct asked asked = {.node = node_of(bridge, number)};
    int fault = asked.node ? take_name(&asked, name, EPERM) : ESTALE;
    if (!fault && size > (asked.is_other ? OTHER_BYTES : UINT16_MAX))
        fault = ENOSPC;
    if (!fault && flags)
        fault = must_be(bridge, &asked, flags);
    if (!fault)
        fault = space_for(bridge, size);
    if (!fault)
        fault = set_one(bridge, &asked, value, size);
    if (!fault)
        note_change(bridge, asked.node);
    fuse_reply_err(request, as_xattr(fault));
}

static void do_removexattr(fuse_req_t request, fuse_ino_t number, const char *name)
{
    struct bridge *bridge = bridge_of(request);
    struct asked twin, asked = {.node = node_of(bridge, number)};
    int fault = asked.node ? take_name(&asked, name, ENODATA) : ESTALE;
    if (!fault)
        fault = drop(bridge, &asked);
    if ((!fault || fault == ENODATA) && asked.node && twin_of(bridge, &asked, &twin)
        && begins(asked.name, "user.")) {
        int other = drop(bridge, &twin);
        fault = fault ? other : 0;
    }
    if (!fault)
        note_change(bridge, asked.node);
    fuse_reply_err(request, as_xattr(fault));
}

static void reply_bytes(fuse_req_t request, const char *bytes, size_t length, size_t size)
{
    if (size == 0)
        fuse_reply_xattr(request, length);
    else if (length > size)
        fuse_reply_err(request, ERANGE);
    else
        fuse_reply_buf(request, bytes, length);
}

static void do_getxattr(fuse_req_t request, fuse_ino_t number, const char *name, size_t size)
{
    struct bridge *bridge = bridge_of(request);
    struct asked asked = {.node = node_of(bridge, number)};
    const char *value;
    size_t length;
    char room[OTHER_BYTES];
    int fault = asked.node ? take_name(&asked, name, ENODATA) : ESTALE;
    if (!fault)
        fault = get_shown(bridge, &asked, room, &value, &length);
    if (fault)
        fuse_reply_err(request, fault);
    else
        reply_bytes(request, value, length, size);
}

/* Names as programs see them. Those of `trusted.` are root's alone. */
struct shown {
    char text[LIST_MAX];
    size_t length;
    bool is_root, is_full, has_twins;
};

static bool is_there(const struct shown *shown, const char *name)
{
    for (size_t at = 0; at < shown->length; at += strlen(shown->text + at) + 1)
        if (strcmp(shown->text + at, name) == 0)
            return true;
    return false;
}

static void show(struct shown *shown, const char *name, size_t length)
{
    char own[NAME_BYTES];
    if (length >= sizeof own)
        return;
    memcpy(own, name, length);
    own[length] = 0;
    const char *at = begins(own, OTHER) ? own + strlen(OTHER) : own;
    bool is_twin = at != own && shown->has_twins && begins(at, "user.") && !begins(at, OWN);
    bool is_hidden = at == own ? begins(own, OWN)
        : !(is_other(at) || is_twin) || (begins(at, "trusted.") && !shown->is_root);
    size_t count = strlen(at) + 1;
    shown->is_full |= count > sizeof shown->text - shown->length;
    if (is_hidden || shown->is_full || is_there(shown, at))
        return;
    memcpy(shown->text + shown->length, at, count);
    shown->length += count;
}

static int list(struct bridge *bridge, struct node *node, struct shown *shown)
{
    const char *name;
    size_t length, at = 0;
    if (is_nameless(node))
        while ((name = kept_next(node->kept, &at)))
            show(shown, name, strlen(name));
    if (is_nameless(node) || node->attr.kind == KIND_LINK || is_bare(bridge, node))
        return 0;
    int fault = begin_batch(bridge, node);
    if (fault)
        return fault;
    size_t list = ask_path(&bridge->batch, OP_ATTRS, bridge->path);
    fault = ask_end(bridge);
    if (!fault)
        fault = refused(bridge, list);
    if (fault)
        return fault == ELOOP ? 0 : fault;
    note_names(bridge, node, list);
    struct names names = answer_names(&bridge->batch, list);
    while ((name = next_name(&names, &length)))
        show(shown, name, length);
    return 0;
}

static void do_listxattr(fuse_req_t request, fuse_ino_t number, size_t size)
{
    struct bridge *bridge = bridge_of(request);
    struct node *node = node_of(bridge, number);
    struct shown shown = {.is_root = bridge->kernel.caller == 0,
                          .has_twins = bridge->transport->is_near};
    int fault = node ? list(bridge, node, &shown) : ESTALE;
    if (!fault && shown.is_full)
        fault = E2BIG;
    if (fault)
        fuse_reply_err(request, fault);
    else
        reply_bytes(request, shown.text, shown.length, size);
}

void xattr_operations(struct fuse_lowlevel_ops *operations)
{
    operations->setxattr = do_setxattr;
    operations->getxattr = do_getxattr;
    operations->listxattr = do_listxattr;
    operations->removexattr = do_removexattr;
}
