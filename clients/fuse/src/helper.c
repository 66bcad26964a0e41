/* The bridge as a helper of mount(8), by which name it is called then: `mount -t overlayd FILE
   DIRECTORY -o OPTIONS` runs `mount.overlayd FILE DIRECTORY -o OPTIONS`. */
#include "options.h"

#include <string.h>
#include <sys/stat.h>

static const char *name_of(const char *path)
{
    const char *slash = strrchr(path, '/');
    return slash ? slash + 1 : path;
}

static bool is_socket(const char *path)
{
    struct stat stat_of_it;
    return stat(path, &stat_of_it) == 0 && S_ISSOCK(stat_of_it.st_mode);
}

bool is_helper(const char *word)
{
    return strncmp(name_of(word), "mount.", 6) == 0;
}

/* mount(8) gives what is mounted and where first, and then its own options: -s, -n and -f say
   nothing here, -N and -t have a value. */
int helper_words(int count, char **words, char **room)
{
    static char manifest[] = "--manifest", options[] = "-o", verbose[] = "--verbose";
    int made = 0, places = 0;
    room[made++] = words[0];
    for (int i = 1; i < count && made < HELPER_WORDS - 2; i++) {
        char *word = words[i];
        bool has_value = word[0] == '-' && word[1] && strchr("oNt", word[1]) && !word[2];
        if (has_value && i + 1 < count) {
            if (word[1] == 'o') {
                room[made++] = options;
                room[made++] = words[i + 1];
            }
            i++;
        } else if (strcmp(word, "-v") == 0) {
            room[made++] = verbose;
        } else if (word[0] != '-') {
            if (places++ == 0 && !is_socket(word))
                room[made++] = manifest;
            room[made++] = word;
        }
    }
    room[made] = NULL;
    return made;
}
