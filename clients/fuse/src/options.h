/* The command line. */
#ifndef OPTIONS_H
#define OPTIONS_H

#include "bridge.h"

/* Whether it may go on; else `status` is the program's. */
bool read_options(int count, char **words, struct options *options, struct fuse_args *arguments,
                  int *status);

/* helper.c: whether the program was called as a helper of mount(8), and its words in that case as a
   command line of its own, for which there is this room. */
enum { HELPER_WORDS = 16 };
bool is_helper(const char *word);
int helper_words(int count, char **words, char **room);

#endif
