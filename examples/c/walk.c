/*
 * Prints the files below a directory that pathspecs select, as `git ls-files -co` does where nothing is ignored.
 *
 *     walk [-a] [-v] [-z] [-C DIRECTORY] [--] [SPEC...]
 *
 * Symbolic links count as files and aren't followed, and what is called .git is left out. Directories that may be
 * skipped aren't opened. With -a specs with `attr:` are answered by the .gitattributes of each directory that is opened,
 * which is read then, if it is an ordinary file. With -z the byte 0 ends each path, and else a line feed. With -v the last line on standard
 * error says how many directories were opened. The status is 1 where a directory can't be read, and 2 where the
 * words or a spec are at fault.
 */
#define _DEFAULT_SOURCE
#define _POSIX_C_SOURCE 200809L

#include "pathspec.h"

#include <dirent.h>
#include <errno.h>
#include <fcntl.h>
#include <stdio.h>
#include <stdlib.h>
#include <string.h>
#include <sys/stat.h>
#include <unistd.h>

/* A directory that is open, and how long its path is. */
struct level {
    DIR *dir;
    size_t length;
};

/* The directories from the top to where the walk stands, and the path of an entry there. */
struct walk {
    ps_search search;
    struct level *levels;
    size_t depth, level_room;
    char *path;
    size_t path_room;
    uint8_t *text;
    size_t text_room;
    bool attributes;
    unsigned long opened;
    int status;
    char end;
};

/* At least `wanted` places of this size; ends the program where memory runs out. */
static void *at_least(void *old, size_t *room, size_t wanted, size_t size)
{
    if (wanted <= *room)
        return old;
    *room = wanted < 32 ? 32 : 2 * wanted;
    void *grown = realloc(old, *room * size);
    if (!grown) {
        perror("walk");
        exit(1);
    }
    return grown;
}

static void fail(struct walk *walk, const char *path)
{
    fprintf(stderr, "walk: %s: %s\n", *path ? path : ".", strerror(errno));
    walk->status = 1;
}

/* What an open file holds, to the walk's room; how long it is, or -1. */
static ssize_t read_all(struct walk *walk, int file)
{
    size_t size = 0;
    for (;;) {
        walk->text = at_least(walk->text, &walk->text_room, size + 4096, 1);
        ssize_t count = read(file, walk->text + size, walk->text_room - size);
        if (count <= 0)
            return count ? count : (ssize_t)size;
        size += (size_t)count;
    }
}

/* Adds the attribute file of the directory that is open at `fd`, to which `length` bytes of the path lead. */
static void add_attributes(struct walk *walk, int fd, size_t length)
{
    int file = openat(fd, ".gitattributes", O_RDONLY | O_NOFOLLOW | O_NONBLOCK | O_CLOEXEC);
    struct stat st;
    if (file < 0) {
        /* (a link is no attribute file) */
        if (errno != ENOENT && errno != ELOOP)
            fail(walk, walk->path);
        return;
    }
    ssize_t size = fstat(file, &st) ? -1 : S_ISREG(st.st_mode) ? read_all(walk, file) : 0;
    if (size < 0)
        fail(walk, walk->path);
    ps_left_out left_out;
    const uint8_t *path = (const uint8_t *)walk->path;
    if (size > 0 && ps_search_add_attributes(&walk->search, PS_DIRECTORY, path, length, walk->text, (size_t)size, &left_out) != PS_OK) {
        errno = ENOMEM;
        fail(walk, walk->path);
    }
    close(file);
}

/* Goes into the directory `name` of the one that `parent` is open at; `length` bytes of the path lead to it. */
static void enter(struct walk *walk, int parent, const char *name, size_t length)
{
    int fd = openat(parent, name, O_RDONLY | O_DIRECTORY | O_NOFOLLOW | O_CLOEXEC);
    DIR *dir = fd < 0 ? NULL : fdopendir(fd);
    if (!dir) {
        fail(walk, walk->path);
        if (fd >= 0)
            close(fd);
        return;
    }
    walk->opened++;
    if (walk->attributes)
        add_attributes(walk, fd, length);
    walk->levels = at_least(walk->levels, &walk->level_room, walk->depth + 1, sizeof *walk->levels);
    walk->levels[walk->depth++] = (struct level){ dir, length };
}

static void leave(struct walk *walk)
{
    closedir(walk->levels[--walk->depth].dir);
}

/* The type of an entry, as DT_DIR; links aren't followed. */
static unsigned char type_of(int fd, const struct dirent *entry)
{
    struct stat st;
    if (entry->d_type != DT_UNKNOWN || fstatat(fd, entry->d_name, &st, AT_SYMLINK_NOFOLLOW))
        return entry->d_type;
    return S_ISDIR(st.st_mode) ? DT_DIR : S_ISREG(st.st_mode) ? DT_REG : S_ISLNK(st.st_mode) ? DT_LNK : DT_UNKNOWN;
}

/* Puts the entry's name behind the directory's path, and says how long that is. */
static size_t join(struct walk *walk, size_t length, const char *name)
{
    size_t name_length = strlen(name);
    walk->path = at_least(walk->path, &walk->path_room, length + name_length + 2, 1);
    if (length)
        walk->path[length++] = '/';
    memcpy(walk->path + length, name, name_length + 1);
    return length + name_length;
}

static void visit(struct walk *walk, const struct dirent *entry)
{
    const char *name = entry->d_name;
    if (!strcmp(name, ".") || !strcmp(name, "..") || !strcmp(name, ".git"))
        return;
    struct level *level = &walk->levels[walk->depth - 1];
    size_t length = join(walk, level->length, name);
    const uint8_t *path = (const uint8_t *)walk->path;
    unsigned char type = type_of(dirfd(level->dir), entry);
    ps_match found;
    if (type == DT_DIR) {
        if (!ps_search_may_skip(&walk->search, path, length))
            enter(walk, dirfd(level->dir), name, length);
    } else if (type == DT_REG || type == DT_LNK) {
        if (ps_search_match(&walk->search, path, length, false, &found))
            printf("%s%c", walk->path, walk->end);
    }
}

/* Visits every entry below the top that may not be skipped. */
static void walk_all(struct walk *walk, const char *top)
{
    join(walk, 0, "");
    enter(walk, AT_FDCWD, top, 0);
    while (walk->depth) {
        errno = 0;
        const struct dirent *entry = readdir(walk->levels[walk->depth - 1].dir);
        if (entry) {
            visit(walk, entry);
            continue;
        }
        if (errno)
            fail(walk, walk->path);
        leave(walk);
    }
}

/* The search of specs that are words. */
static uint32_t make(struct walk *walk, char **specs)
{
    uint8_t *texts = NULL;
    size_t length = 0, room = 0;
    ps_fault fault = { 0, 0 };
    for (; *specs; specs++) {
        size_t size = strlen(*specs) + 1;
        texts = at_least(texts, &room, length + size, 1);
        memcpy(texts + length, *specs, size);
        length += size;
    }
    const uint8_t *none = (const uint8_t *)"";
    uint32_t made = ps_search_new(&walk->search, texts ? texts : none, length, none, 0, none, 0, 0, &fault);
    if (made == PS_FAULT) {
        uint8_t name[32];
        size_t size;
        ps_fault_name(fault.kind, name, sizeof name, &size);
        fprintf(stderr, "walk: spec %zu: %.*s\n", fault.number, (int)size, (const char *)name);
    }
    free(texts);
    return made;
}

int main(int argc, char **argv)
{
    struct walk walk = { .search = PS_SEARCH_INIT, .end = '\n' };
    const char *top = ".";
    int option, verbose = 0;
    while ((option = getopt(argc, argv, "+avzC:")) != -1) {
        if (option == 'a')
            walk.attributes = true;
        else if (option == 'v')
            verbose = 1;
        else if (option == 'z')
            walk.end = 0;
        else if (option == 'C')
            top = optarg;
        else
            return 2;
    }
    if (make(&walk, argv + optind) != PS_OK)
        return 2;
    walk_all(&walk, top);
    ps_search_free(&walk.search);
    free(walk.levels);
    free(walk.path);
    free(walk.text);
    if (verbose)
        fprintf(stderr, "opened %lu\n", walk.opened);
    return walk.status;
}
