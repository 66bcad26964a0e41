/* What a mount in this process is made of: a manifest's text, and the bytes of its blobs. */
#ifndef MANIFEST_H
#define MANIFEST_H

#include <stdbool.h>
#include <stddef.h>
#include <stdint.h>

struct manifest {
    char *text;
    size_t length;
    char *upper;              /* the saved upper with which it goes on, or NULL */
    size_t upper_length;
    char *blobs;              /* one behind the other */
    size_t blobs_length;
    size_t *lengths, count;   /* of each of them */
};

/* Reads a manifest and the files that it names, which have at most `limit` bytes together, and with
   `upper` a saved upper. A line tells why that can't be. */
bool manifest_read(const char *path, const char *upper, uint64_t limit,
                   struct manifest *manifest);
void manifest_free(struct manifest *manifest);

#endif
