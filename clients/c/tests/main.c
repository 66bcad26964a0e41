/* All tests of the library: in short; or, by the argument `long`, for some minutes, with millions of
 * frames that nobody meant, a million rounds of calls, and a minute of threads; or, by `few`, as for
 * valgrind, on which each takes its time. */
#include "frames.h"
#include "tests.h"

static const struct form {
    const char *name;
    long frames, rounds;
    int turns, seconds;
} forms[] = {
    {"", 200000, 20000, 2000, 0},
    {"long", 5000000, 1000000, 0, 60},
    {"few", 5000, 500, 50, 0},
};

int main(int argc, char **argv)
{
    const struct form *form = forms;
    for (size_t i = 0; argc > 1 && i < sizeof forms / sizeof *forms; i++)
        if (strcmp(argv[1], forms[i].name) == 0)
            form = forms + i;
    embedding(form->frames);
    jobs_and_places();
    saving();
    refused_memory();
    steady_memory(form->rounds);
    shared_by_threads(form->turns, form->seconds);
    printf("the library: %u checks, %u failed\n", checks, failures);
    return failures != 0;
}
