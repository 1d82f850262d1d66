/* Writes those lines of standard input that libgit2's `git_pathspec_matches_path` takes for the specs of its words: a plain
   loop that builds no tree and checks no record. `bench/select` measures it beside the program. */
#include <git2.h>
#include <stdio.h>
#include <stdlib.h>
#include <string.h>

int main(int count, char **words) {
    git_strarray specs = {words + 1, (size_t)(count - 1)};
    git_pathspec *pathspec;
    char *line = NULL;
    size_t room = 0;
    ssize_t length;
    static char buffer[1 << 16];

    if (git_libgit2_init() < 0 || git_pathspec_new(&pathspec, &specs) < 0)
        return 1;
    setvbuf(stdout, buffer, _IOFBF, sizeof buffer);
    while ((length = getline(&line, &room, stdin)) > 0) {
        if (line[length - 1] == '\n')
            line[--length] = 0;
        if (git_pathspec_matches_path(pathspec, GIT_PATHSPEC_USE_CASE, line)) {
            line[length] = '\n';
            if (fwrite(line, 1, (size_t)length + 1, stdout) != (size_t)length + 1)
                return 1;
        }
    }
    free(line);
    git_pathspec_free(pathspec);
    git_libgit2_shutdown();
    return fflush(stdout) != 0;
}
