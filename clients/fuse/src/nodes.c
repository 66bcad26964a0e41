/* Nodes, which stand for objects, and the names by which they are reached.

   A node has a number of its own, which is its inode number and never another node's. It stays as
   long as the kernel knows it or has it open, as long as names in it are known, and, where it has
   something that the server doesn't keep, as long as it has a name. */
#include "bridge.h"

#include <errno.h>
#include <stdlib.h>
#include <string.h>
#include <sys/random.h>

enum { SLOTS = 1024 };

static uint64_t hash_of(const struct nodes *nodes, const struct node *parent, const char *text)
{
    return siphash(nodes->key, parent->number, text, strlen(text));
}

bool nodes_begin(struct bridge *bridge)
{
    struct nodes *nodes = &bridge->nodes;
    nodes->number_slots = nodes->name_slots = SLOTS;
    nodes->by_number = calloc(SLOTS, sizeof *nodes->by_number);
    nodes->by_name = calloc(SLOTS, sizeof *nodes->by_name);
    bool has_key = getrandom(nodes->key, sizeof nodes->key, 0) == sizeof nodes->key;
    struct node *root = nodes->by_number && nodes->by_name && has_key ? node_new(bridge) : NULL;
    if (!root)
        return false;
    root->lookups = 1;
    root->attr.kind = KIND_DIRECTORY;
    return places_begin(bridge);
}

void nodes_end(struct bridge *bridge)
{
    struct nodes *nodes = &bridge->nodes;
    for (size_t i = 0; nodes->by_name && i < nodes->name_slots; i++)
        for (struct name *name = nodes->by_name[i], *next; name; name = next) {
            next = name->next;
            free(name);
        }
    for (size_t i = 0; nodes->by_number && i < nodes->number_slots; i++)
        for (struct node *node = nodes->by_number[i], *next; node; node = next) {
            next = node->next;
            opened_end(bridge, node);
            kept_free(node->kept);
            link_times_free(node->link_times);
            free(node);
        }
    free(nodes->by_name);
    free(nodes->by_number);
    places_end(bridge);
}

/* The tables grow where there is memory for it; else their slots have longer chains. */
static void grow_numbers(struct nodes *nodes)
{
    size_t slots = nodes->number_slots * 2;
    struct node **table = nodes->node_count < slots ? NULL : calloc(slots, sizeof *table);
    if (!table)
        return;
    for (size_t i = 0; i < nodes->number_slots; i++)
        for (struct node *node = nodes->by_number[i], *next; node; node = next) {
            next = node->next;
            node->next = table[node->number % slots];
            table[node->number % slots] = node;
        }
    free(nodes->by_number);
    nodes->by_number = table;
    nodes->number_slots = slots;
}

static void grow_names(struct nodes *nodes)
{
    size_t slots = nodes->name_slots * 2;
    struct name **table = nodes->name_count < slots ? NULL : calloc(slots, sizeof *table);
    if (!table)
        return;
    for (size_t i = 0; i < nodes->name_slots; i++)
        for (struct name *name = nodes->by_name[i], *next; name; name = next) {
            next = name->next;
            name->next = table[name->hash % slots];
            table[name->hash % slots] = name;
        }
    free(nodes->by_name);
    nodes->by_name = table;
    nodes->name_slots = slots;
}

struct node *node_of(struct bridge *bridge, uint64_t number)
{
    struct nodes *nodes = &bridge->nodes;
    struct node *node = nodes->by_number[number % nodes->number_slots];
    while (node && node->number != number)
        node = node->next;
    return node;
}

struct node *node_new(struct bridge *bridge)
{
    struct nodes *nodes = &bridge->nodes;
    struct node *node = calloc(1, sizeof *node);
    if (!node)
        return NULL;
    grow_numbers(nodes);
    node->number = node->shown = ++nodes->last_number;
    struct node **slot = &nodes->by_number[node->number % nodes->number_slots];
    node->next = *slot;
    *slot = node;
    nodes->node_count++;
    return node;
}

static void node_free(struct nodes *nodes, struct node *node)
{
    struct node **slot = &nodes->by_number[node->number % nodes->number_slots];
    while (*slot != node)
        slot = &(*slot)->next;
    *slot = node->next;
    nodes->node_count--;
    kept_free(node->kept);
    link_times_free(node->link_times);
    free(node);
}

/* Names. */

static struct name **name_slot(struct nodes *nodes, const struct node *parent, const char *text)
{
    uint64_t hash = hash_of(nodes, parent, text);
    struct name **slot = &nodes->by_name[hash % nodes->name_slots];
    while (*slot && ((*slot)->hash != hash || (*slot)->parent != parent
                     || strcmp((*slot)->text, text) != 0))
        slot = &(*slot)->next;
    return slot;
}

struct node *node_at(struct bridge *bridge, const struct node *parent, const char *text)
{
    struct name *name = *name_slot(&bridge->nodes, parent, text);
    return name ? name->node : NULL;
}

bool node_name(struct bridge *bridge, struct node *parent, const char *text, struct node *node)
{
    struct nodes *nodes = &bridge->nodes;
    size_t length = strlen(text);
    struct name *name = calloc(1, sizeof *name + length + 1);
    if (!name)
        return false;
    grow_names(nodes);
    memcpy(name->text, text, length + 1);
    name->parent = parent;
    name->node = node;
    name->hash = hash_of(nodes, parent, text);
    struct name **slot = &nodes->by_name[name->hash % nodes->name_slots];
    name->next = *slot;
    *slot = name;
    name->of_node = node->names;
    node->names = name;
    name->after = parent->children;
    if (name->after)
        name->after->before = name;
    parent->children = name;
    nodes->name_count++;
    return true;
}

static void name_free(struct nodes *nodes, struct name **slot)
{
    struct name *name = *slot, **of_node = &name->node->names;
    *slot = name->next;
    while (*of_node != name)
        of_node = &(*of_node)->of_node;
    *of_node = name->of_node;
    if (name->before)
        name->before->after = name->after;
    else
        name->parent->children = name->after;
    if (name->after)
        name->after->before = name->before;
    nodes->name_count--;
    free(name);
}

/* A directory that has no name any more has nothing in it either. Those nodes stand in a row, and
   are kept until all of their names are gone, so that a deep tree takes no stack. */
static void node_unnamed(struct bridge *bridge, struct node *node)
{
    struct node *last = node, *next;
    node->is_doomed = true;
    node->lookups++;
    for (struct node *at = node; at; at = at->doomed)
        while (!at->names && at->children) {
            struct node *child = at->children->node;
            name_free(&bridge->nodes, name_slot(&bridge->nodes, at, at->children->text));
            if (child->is_doomed)
                continue;
            child->is_doomed = true;
            child->lookups++;
            last = last->doomed = child;
        }
    for (struct node *at = node; at; at = next) {
        next = at->doomed;
        at->doomed = NULL;
        at->is_doomed = false;
        node_forget(bridge, at, 1);
    }
}

void node_unname(struct bridge *bridge, struct node *parent, const char *text)
{
    struct name **slot = name_slot(&bridge->nodes, parent, text);
    if (!*slot)
        return;
    struct node *node = (*slot)->node;
    name_free(&bridge->nodes, slot);
    parent->lookups++;
    node_unnamed(bridge, node);
    parent->lookups--;
    if (parent->names)
        node_settle(bridge, parent);
}

struct node *node_found(struct bridge *bridge, struct node *parent, const char *text,
                        const struct attr *attr)
{
    struct node *node = node_at(bridge, parent, text);
    if (node && node->attr.kind == attr->kind)
        return node;
    if (node)
        node_unname(bridge, parent, text);
    node = place_found(bridge, parent, text, attr);
    bool is_new = node && !node->names;
    if (node && !node_name(bridge, parent, text, node)) {
        node_settle(bridge, node);
        return NULL;
    }
    if (is_new)
        node->attr = *attr;
    return node;
}

/* Lets a node go that nobody needs, and the directories that were kept for it alone. */
void node_settle(struct bridge *bridge, struct node *node)
{
    while (node->number != ROOT && !node->lookups && !node->children && !node->handles) {
        bool is_kept = node->has_times || node->has_owner || node->special;
        if (node->names && (is_kept || node->names->of_node))
            return;
        struct node *parent = NULL;
        place_left(bridge, node);
        opened_end(bridge, node);
        if (node->names) {
            parent = node->names->parent;
            name_free(&bridge->nodes, name_slot(&bridge->nodes, parent, node->names->text));
        }
        node_free(&bridge->nodes, node);
        if (!parent)
            return;
        node = parent;
    }
}

void node_forget(struct bridge *bridge, struct node *node, uint64_t lookups)
{
    node->lookups -= lookups < node->lookups ? lookups : node->lookups;
    node_settle(bridge, node);
}

unsigned names_of(const struct node *node)
{
    unsigned count = 0;
    for (const struct name *name = node->names; name; name = name->of_node)
        count++;
    return count;
}

/* Paths, from their end on. */

static int path_before(const struct node *node, char *path, size_t at)
{
    while (node->number != ROOT) {
        const struct name *name = node->names;
        if (!name)
            return ENOENT;
        size_t length = strlen(name->text);
        if (at < length + 1)
            return ENAMETOOLONG;
        at -= length;
        memcpy(path + at, name->text, length);
        path[--at] = '/';
        node = name->parent;
    }
    if (path[at] == 0)
        path[--at] = '/';
    memmove(path, path + at, PATH_BYTES - at);
    return 0;
}

int path_of(const struct node *node, char *path)
{
    path[PATH_BYTES - 1] = 0;
    return path_before(node, path, PATH_BYTES - 1);
}

int path_in(const struct node *parent, const char *name, char *path)
{
    size_t length = strlen(name);
    if (length > 255)
        return ENAMETOOLONG;
    size_t at = PATH_BYTES - 1 - length;
    memcpy(path + at, name, length);
    path[PATH_BYTES - 1] = 0;
    path[--at] = '/';
    return path_before(parent, path, at);
}
