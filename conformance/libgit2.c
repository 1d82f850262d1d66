/* Answers questions of standard input by libgit2's `git_pathspec_*`: for each path 1 where the specs match it and else 0, and a line
   feed behind the paths of a question; or `-` where the specs are refused. A question is texts, each ended by the byte 0: the flags,
   the count of specs, the specs, the count of paths, the paths. */
#include <git2.h>
#include <stdio.h>
#include <stdlib.h>

/* The next text, or NULL at the end. The caller frees it. */
static char *text(void) {
    char *read = NULL;
    size_t room = 0;

    if (getdelim(&read, &room, 0, stdin) >= 0)
        return read;
    free(read);
    return NULL;
}

/* The next text as a number, or -1 at the end. */
static long number(void) {
    char *read = text();
    long found = read ? strtol(read, NULL, 10) : -1;

    free(read);
    return found;
}

/* Reads paths and answers for each. */
static void answer(git_pathspec *pathspec, long flags) {
    for (long left = number(); left > 0; left--) {
        char *path = text();

        if (pathspec && path)
            putchar(git_pathspec_matches_path(pathspec, (uint32_t)flags, path) ? '1' : '0');
        free(path);
    }
    puts(pathspec ? "" : "-");
}

int main(void) {
    if (git_libgit2_init() < 0)
        return 1;
    for (long flags = number(); flags >= 0; flags = number()) {
        long count = number();
        char **specs = calloc((size_t)count + 1, sizeof *specs);
        git_strarray list = {specs, (size_t)count};
        git_pathspec *pathspec = NULL;

        if (!specs)
            return 1;
        for (long at = 0; at < count; at++)
            specs[at] = text();
        if (git_pathspec_new(&pathspec, &list) < 0)
            pathspec = NULL;
        answer(pathspec, flags);
        git_pathspec_free(pathspec);
        git_strarray_dispose(&list);
    }
    git_libgit2_shutdown();
    return fflush(stdout) != 0;
}
