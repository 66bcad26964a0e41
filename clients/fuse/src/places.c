/* Inode numbers, by the place at which an object lies. All names of one file have one; it stays
   when the object is renamed, and when it is copied up, also where the kernel has let it go since.

   A file of a lower layer that has several names is another file once one of them is copied up, as
   on overlayfs, so that one has another number then. Two names of a file of the upper, found one
   after the other, are one node; below the upper they are two, of one number. */
#include "bridge.h"

#include <stdlib.h>

enum { SLOTS = 1024, LAYER_BITS = 48, FIRST = ROOT + 1 };

/* An object of the upper that has the number which it had before it was copied up. */
struct moved {
    struct moved *next;       /* of the same slot */
    uint64_t key, shown;
};

struct places {
    struct node **nodes;      /* of the upper, with several names, by their keys */
    struct moved **moved;     /* by their keys in the upper */
    size_t slots, moved_slots, node_count, moved_count;
};

bool places_begin(struct bridge *bridge)
{
    struct places *places = calloc(1, sizeof *places);
    bridge->nodes.places = places;
    if (!places)
        return false;
    places->slots = places->moved_slots = SLOTS;
    places->nodes = calloc(SLOTS, sizeof *places->nodes);
    places->moved = calloc(SLOTS, sizeof *places->moved);
    return places->nodes && places->moved;
}

void places_end(struct bridge *bridge)
{
    struct places *places = bridge->nodes.places;
    for (size_t i = 0; places && places->moved && i < places->moved_slots; i++)
        for (struct moved *moved = places->moved[i], *next; moved; moved = next) {
            next = moved->next;
            free(moved);
        }
    if (places) {
        free(places->moved);
        free(places->nodes);
    }
    free(places);
}

static uint64_t number_of(struct place place)
{
    return ((uint64_t)place.layer << LAYER_BITS) + place.key + FIRST;
}

static bool ask_place(struct bridge *bridge, const char *path, struct place *place)
{
    return bridge->transport->place && bridge->transport->place(bridge, path, place);
}

/* What was copied up. */

static struct moved **moved_at(struct places *places, uint64_t key)
{
    struct moved **at = &places->moved[key % places->moved_slots];
    while (*at && (*at)->key != key)
        at = &(*at)->next;
    return at;
}

static void grow_moved(struct places *places)
{
    size_t slots = places->moved_slots * 2;
    struct moved **table = places->moved_count < slots ? NULL : calloc(slots, sizeof *table);
    if (!table)
        return;
    for (size_t i = 0; i < places->moved_slots; i++)
        for (struct moved *moved = places->moved[i], *next; moved; moved = next) {
            next = moved->next;
            moved->next = table[moved->key % slots];
            table[moved->key % slots] = moved;
        }
    free(places->moved);
    places->moved = table;
    places->moved_slots = slots;
}

static void forget_moved(struct places *places, uint64_t key)
{
    struct moved **at = moved_at(places, key), *moved = *at;
    if (!moved)
        return;
    *at = moved->next;
    places->moved_count--;
    free(moved);
}

static void keep_moved(struct places *places, uint64_t key, uint64_t shown)
{
    struct moved **at = moved_at(places, key), *moved = *at;
    if (!moved) {
        moved = calloc(1, sizeof *moved);
        if (!moved)
            return;
        *at = moved;
        places->moved_count++;
    }
    moved->key = key;
    moved->shown = shown;
    grow_moved(places);
}

/* Files of the upper with several names. */

static struct node **linked_at(struct places *places, uint64_t key)
{
    struct node **at = &places->nodes[key % places->slots];
    while (*at && (*at)->place.key != key)
        at = &(*at)->of_place;
    return at;
}

static void grow_linked(struct places *places)
{
    size_t slots = places->slots * 2;
    struct node **table = places->node_count < slots ? NULL : calloc(slots, sizeof *table);
    if (!table)
        return;
    for (size_t i = 0; i < places->slots; i++)
        for (struct node *node = places->nodes[i], *next; node; node = next) {
            next = node->of_place;
            node->of_place = table[node->place.key % slots];
            table[node->place.key % slots] = node;
        }
    free(places->nodes);
    places->nodes = table;
    places->slots = slots;
}

static void leave_linked(struct places *places, struct node *node)
{
    struct node **at = &places->nodes[node->place.key % places->slots];
    while (*at && *at != node)
        at = &(*at)->of_place;
    if (!*at)
        return;
    *at = node->of_place;
    node->of_place = NULL;
    places->node_count--;
}

static void enter_linked(struct places *places, struct node *node)
{
    struct node **at = &places->nodes[node->place.key % places->slots];
    node->of_place = *at;
    *at = node;
    places->node_count++;
    grow_linked(places);
}

/* A node gets the number of its place, or of what lies there now. */
static void set_place(struct bridge *bridge, struct node *node, struct place place)
{
    struct places *places = bridge->nodes.places;
    const struct moved *moved = place.layer == 0 ? *moved_at(places, place.key) : NULL;
    node->place = place;
    node->has_place = true;
    node->shown = moved ? moved->shown : number_of(place);
}

struct node *place_found(struct bridge *bridge, const struct node *parent, const char *name,
                         const struct attr *attr)
{
    struct places *places = bridge->nodes.places;
    char path[PATH_BYTES];
    struct place place;
    bool is_told = path_in(parent, name, path) == 0 && ask_place(bridge, path, &place);
    bool is_linked = is_told && place.layer == 0 && attr->kind != KIND_DIRECTORY
        && attr->links > 1;
    struct node *node = is_linked ? *linked_at(places, place.key) : NULL;
    if (node && node->attr.kind == attr->kind && node->names)
        return node;
    node = node_new(bridge);
    if (!node || !is_told)
        return node;
    set_place(bridge, node, place);
    node->is_linked = attr->links > 1;
    if (is_linked)
        enter_linked(places, node);
    return node;
}

void place_made(struct bridge *bridge, struct node *node)
{
    if (!node->has_place || node->place.layer != 0)
        return;
    forget_moved(bridge->nodes.places, node->place.key);
    node->shown = number_of(node->place);
}

void place_touched(struct bridge *bridge, struct node *node)
{
    char path[PATH_BYTES];
    struct place place;
    bool is_split = node->has_place && node->place.layer > 0 && node->is_linked
        && node->attr.kind == KIND_FILE;
    if (is_split && path_of(node, path) == 0 && ask_place(bridge, path, &place)
        && place.layer == 0)
        set_place(bridge, node, place);
}

void place_left(struct bridge *bridge, struct node *node)
{
    char path[PATH_BYTES];
    struct place place;
    if (!node->has_place)
        return;
    if (node->place.layer == 0) {
        leave_linked(bridge->nodes.places, node);
        return;
    }
    if (node->names && path_of(node, path) == 0 && ask_place(bridge, path, &place)
        && place.layer == 0)
        keep_moved(bridge->nodes.places, place.key, node->shown);
}
