/* Times what libpathspec and libgit2's `git_pathspec_matches_path` take to say of each path of a listing whether the specs select
 * it: `boundary LISTING ROUNDS SPEC...`. One line: nanoseconds a path of both, the least of the rounds, and how many paths are
 * selected. It ends with 1 where the two select different numbers of paths. `bench/library` runs it. */
#define _POSIX_C_SOURCE 200809L

#include "pathspec.h"

#include <git2.h>
#include <stdio.h>
#include <stdlib.h>
#include <string.h>
#include <time.h>

static char **paths;
static size_t *lengths, count;

static void stop(const char *why)
{
    fprintf(stderr, "boundary: %s\n", why);
    exit(1);
}

static void *room(size_t size)
{
    void *block = malloc(size ? size : 1);
    if (!block)
        stop("memory ran out");
    return block;
}

static void read_paths(const char *name)
{
    FILE *file = fopen(name, "rb");
    if (!file || fseek(file, 0, SEEK_END))
        stop("the listing can't be read");
    size_t size = (size_t)ftell(file);
    char *text = room(size), *line = text;
    rewind(file);
    if (fread(text, 1, size, file) != size)
        stop("the listing can't be read");
    fclose(file);
    paths = room(size * sizeof *paths / 2);
    lengths = room(size * sizeof *lengths / 2);
    for (char *end; (end = memchr(line, '\n', size - (size_t)(line - text))); line = end + 1) {
        *end = 0;
        paths[count] = line;
        lengths[count++] = (size_t)(end - line);
    }
}

static double now(void)
{
    struct timespec time;
    clock_gettime(CLOCK_MONOTONIC, &time);
    return (double)time.tv_sec * 1e9 + (double)time.tv_nsec;
}

static ps_search made(int specs, char **words)
{
    static const uint8_t none[] = "";
    ps_search search = PS_SEARCH_INIT;
    ps_fault fault;
    size_t size = 0;
    for (int i = 0; i < specs; i++)
        size += strlen(words[i]) + 1;
    char *texts = room(size), *end = texts;
    for (int i = 0; i < specs; i++)
        end = stpcpy(end, words[i]) + 1;
    if (ps_search_new(&search, (uint8_t *)texts, size, none, 0, none, 0, 0, &fault) != PS_OK)
        stop("a spec is at fault");
    free(texts);
    return search;
}

int main(int words, char **word)
{
    if (words < 4)
        stop("boundary LISTING ROUNDS SPEC...");
    int rounds = atoi(word[2]);
    double least = 0, other_least = 0;
    size_t selected = 0, other_selected = 0;
    git_strarray specs = {word + 3, (size_t)(words - 3)};
    git_pathspec *pathspec;
    read_paths(word[1]);
    ps_search search = made(words - 3, word + 3);
    if (git_libgit2_init() < 0 || git_pathspec_new(&pathspec, &specs) < 0)
        stop("libgit2 refuses the specs");
    for (int round = 0; round < rounds; round++) {
        ps_match found;
        double start = now();
        selected = 0;
        for (size_t i = 0; i < count; i++)
            selected += ps_search_match(&search, (uint8_t *)paths[i], lengths[i], false, &found) == PS_YES;
        double middle = now();
        other_selected = 0;
        for (size_t i = 0; i < count; i++)
            other_selected += git_pathspec_matches_path(pathspec, GIT_PATHSPEC_USE_CASE, paths[i]) == 1;
        double end = now();
        if (!round || middle - start < least)
            least = middle - start;
        if (!round || end - middle < other_least)
            other_least = end - middle;
    }
    ps_search_free(&search);
    git_pathspec_free(pathspec);
    git_libgit2_shutdown();
    printf("%9.1f %9.1f %9zu\n", least / (double)count, other_least / (double)count, selected);
    return selected != other_selected;
}
