/*
 * Git pathspecs, proved: searches for C and what calls C.
 *
 * A search is made of specs (gitglossary, "pathspec") and then asked about paths. Link libpathspec.a or
 * libpathspec.so.
 *
 * Bytes. Every text is a pointer and a length in bytes, of any bytes, without a 0 at its end. A pointer that goes
 * with a length is never null, not even where the length is 0: hand in "". A path is relative to the top of the
 * repository, has names between single slashes, and no slash at its end, not even a directory's. The empty path is
 * the top. With a slash at its end a path is another one, and files may be lost: each question says which.
 *
 * Pointers. Each call reads what it is given by `const`, and writes the rest; it keeps none of these pointers. No
 * two of the arguments that a call writes overlap, and none of them overlaps one that it reads. None is null. What
 * a call writes may hold anything before, but for a ps_search, which is empty or owns a search.
 *
 * Ownership. A ps_search owns its search once ps_search_new, ps_search_from_lines or ps_search_share has answered
 * PS_OK, until ps_search_free. The caller makes it of zero bytes (`ps_search s = PS_SEARCH_INIT;`), never writes
 * `at`, and never copies a ps_search that isn't empty. An empty one may be given to every call: each says what it
 * then answers. Freeing it does nothing, and so freeing twice does nothing. A search made over another frees the
 * other first.
 *
 * Answers. A question answers PS_YES or PS_NO and nothing else, so `if (ps_search_may_skip(..))` is safe. When the
 * answer is unknown, the call gives the one that leaves no file out: an empty ps_search skips no directory, and a
 * match that runs out of memory selects the path. An empty ps_search selects nothing: check the answer of
 * ps_search_new, or call ps_search_is_empty.
 *
 * Threads. A ps_search is given to one call at a time, and may be used by one thread and then by another, where a
 * lock, a thread's start or its join orders the two. For threads that ask at the same time, ps_search_share gives
 * each a ps_search of its own on the one search, whose room is its own. No call is made from a signal handler, nor
 * in a child that a process with threads forked.
 *
 * Memory is taken by malloc, realloc and free, which must come from one allocator. Where none is left a call
 * answers PS_MEMORY, and ps_search_match says so in `found`. Only calls that say so take memory.
 */
#ifndef PATHSPEC_H
#define PATHSPEC_H

#include <stdbool.h>
#include <stddef.h>
#include <stdint.h>

#ifdef __cplusplus
extern "C" {
#endif

/* The number of these declarations. It grows where one of them changes. */
#define PS_VERSION 2

/* A search, or none. Zero bytes make an empty one. */
typedef struct ps_search {
    void *at; /* never read or written by the caller */
} ps_search;

#define PS_SEARCH_INIT { NULL }

/* What settles a path. */
typedef struct ps_match {
    size_t number;        /* the place of the spec in the list that the search was made of, from 0; see PS_ALWAYS */
    uint32_t kind;        /* how it came to match: one of PS_ALWAYS to PS_VERBATIM, PS_UNSETTLED or PS_NO_MEMORY */
    uint32_t is_excluded; /* 1 where the spec takes the path out, and else 0 */
} ps_match;

/* Why a call answered PS_FAULT. */
typedef struct ps_fault {
    size_t number; /* the place of the spec, or the number of its line, from 0 */
    uint32_t kind; /* one of PS_FAULT_EMPTY to PS_FAULT_GLOB_AND_NO_GLOB; ps_fault_name has its name */
} ps_fault;

/* What git leaves out of the text of an attribute file: each of these lines says nothing. */
typedef struct ps_left_out {
    size_t count;    /* how many lines */
    size_t line;     /* the number of the first of them, from 1, as an editor has it; 0 where there is none */
    uint32_t reason; /* why: one of PS_LINE_TOO_LONG to PS_LINE_NEGATIVE; 0 where there is none */
} ps_left_out;

/* What calls answer. A question answers PS_NO or PS_YES alone. */
enum {
    PS_NO = 0,     /* no; or that there is no such text */
    PS_OK = 0,     /* of a call that makes or changes: done */
    PS_YES = 1,    /* yes; or that there is such a text */
    PS_EMPTY = 2,  /* the ps_search is empty */
    PS_MEMORY = 3, /* memory ran out */
    PS_PREFIX = 4, /* the prefix, or a directory, isn't clean: neither empty nor names joined by single slashes */
    PS_FAULT = 5,  /* a spec, a list of attributes or a word is at fault, and the ps_fault says why */
    PS_MIXED = 6   /* lists of ps_search_assign and attribute files aren't mixed in one ps_search */
};

/* What is at fault: a spec as it is read (1 to 7) or placed in the repository (12, 13), a list of attributes (8 to 11),
 * or the environment (14, 15). */
enum {
    PS_FAULT_EMPTY = 1,               /* a spec without a byte */
    PS_FAULT_UNIMPLEMENTED_SHORT = 2, /* a byte of short magic that git keeps free for later, as in `:%a` */
    PS_FAULT_MISSING_PAREN = 3,       /* long magic without its closing parenthesis, as `:(top` */
    PS_FAULT_INVALID_KEYWORD = 4,     /* no keyword of long magic, as in `:(nope)a` */
    PS_FAULT_LITERAL_WITH_GLOB = 5,   /* `literal` and `glob` in one spec */
    PS_FAULT_SECOND_ATTRIBUTES = 6,   /* a second list of attributes in one spec */
    PS_FAULT_INVALID_PREFIX = 7,      /* `prefix:` with no number, or with one that is no boundary of the path */
    PS_FAULT_EMPTY_ATTRIBUTES = 8,    /* no attribute */
    PS_FAULT_INVALID_NAME = 9,        /* no name of an attribute */
    PS_FAULT_INVALID_VALUE_BYTE = 10, /* a byte that no value of an attribute holds */
    PS_FAULT_TRAILING_ESCAPE = 11,    /* a value that ends with the backslash of an escape */
    PS_FAULT_OUTSIDE_ROOT = 12,       /* an absolute path that doesn't lie in the root */
    PS_FAULT_LEAVES_REPOSITORY = 13,  /* a path that climbs out of the repository */
    PS_FAULT_NOT_TRUTH = 14,          /* a word that is none of truth */
    PS_FAULT_GLOB_AND_NO_GLOB = 15    /* globs are both asked for and not */
};

/* Bits of what specs get that say nothing of it (git, "GIT_LITERAL_PATHSPECS" and those after it). Others don't count. */
enum {
    PS_LITERAL = 1, /* specs aren't read: each is a path; PS_GLOB and PS_NOGLOB then don't count */
    PS_ICASE = 2,   /* ASCII case doesn't count */
    PS_GLOB = 4,    /* globs whose wildcards don't take '/'; PS_NOGLOB then doesn't count */
    PS_NOGLOB = 8   /* paths are compared byte for byte */
};

/* How a spec came to match. */
enum {
    PS_UNSETTLED = 0, /* no spec settles the path */
    PS_ALWAYS = 1,    /* the path of the spec is empty, or the path is; or there are only excludes, and none matches */
    PS_BELOW = 2,     /* the path lies below the path of the spec */
    PS_WILDCARD = 3,  /* the path of the spec is a glob, and it matches the path */
    PS_VERBATIM = 4,  /* the path is the path of the spec */
    PS_NO_MEMORY = 5  /* memory ran out before it was known */
};

/* The places of attribute files (gitattributes), of which the first counts most. */
enum {
    PS_INFO = 1,      /* `info/attributes` of the repository */
    PS_DIRECTORY = 0, /* `.gitattributes` of a directory, of which the deeper counts more */
    PS_GLOBAL = 2     /* what core.attributesFile names, for all repositories of a user */
};

/* Why git leaves out a line of an attribute file. */
enum {
    PS_LINE_TOO_LONG = 1,     /* 2,048 bytes or more */
    PS_LINE_INVALID_NAME = 2, /* no name of an attribute */
    PS_LINE_MACRO = 3,        /* a macro in the file of a directory below the top */
    PS_LINE_NEGATIVE = 4      /* a pattern that begins with `!` */
};

/* ---- searches */

/*
 * Makes a search of specs: texts, each ended by the byte 0, which the last may lack. They are given in the
 * directory `prefix` of a repository that lies at `root`, an absolute path, which only specs that are absolute
 * paths need; both may be empty. No specs and a prefix stand for the prefix. What the search held before is freed.
 * PS_OK; or PS_MEMORY, PS_PREFIX, or PS_FAULT with the first spec that can't be read, or else the first that can't be
 * placed in the repository; then the search is empty. `fault` is written only where the answer is PS_FAULT. The cost
 * is linear in the bytes of all specs, and for each spec in the prefix and the root; and they are sorted. It takes
 * memory.
 */
uint32_t ps_search_new(ps_search *search, const uint8_t *specs, size_t specs_length, const uint8_t *prefix,
                       size_t prefix_length, const uint8_t *root, size_t root_length, uint32_t defaults, ps_fault *fault);

/*
 * The same of the specs on the lines of a text, as in a file of --pathspec-from-file. A line feed ends a line, and
 * the last may lack it; one carriage return before a line feed is no part of the line. Nothing is trimmed or
 * unquoted, and an empty line is at fault.
 */
uint32_t ps_search_from_lines(ps_search *search, const uint8_t *text, size_t text_length, const uint8_t *prefix,
                              size_t prefix_length, const uint8_t *root, size_t root_length, uint32_t defaults,
                              ps_fault *fault);

/*
 * Gives `other` the search of `search`, with room of its own and no attributes. What `other` held before is freed.
 * The search itself is freed with the last ps_search that holds it. PS_OK; or PS_EMPTY or PS_MEMORY, and then
 * `other` is empty. `search` and `other` are two. It takes memory for the room.
 */
uint32_t ps_search_share(ps_search *search, ps_search *other);

/*
 * Gives a path attributes, as the option --attr of pathspec-select does. `list` is read as `attr:` of a spec takes
 * it (gitglossary), as `text -diff !merge eol=lf`; no macro is unfolded. Later lists for a path come after earlier
 * ones. A directory's path has no slash at its end: what `src/` is given, the directory `src` doesn't get. A path
 * that was given none has every attribute unspecified. PS_OK; or PS_EMPTY, PS_MEMORY, PS_MIXED where attribute files
 * were added, or PS_FAULT with the kind of the list's fault and the number 0; then nothing has changed. `fault` is
 * written only where the answer is PS_FAULT. It takes memory for the path and the list. A path's lists are looked up
 * in a map of the paths, in each question about a spec with attributes and in this call: what that takes grows with
 * the logarithm of the number of paths.
 */
uint32_t ps_search_assign(ps_search *search, const uint8_t *path, size_t path_length, const uint8_t *list,
                          size_t list_length, ps_fault *fault);

/*
 * Adds the text of an attribute file: specs with `attr:` are then answered as git answers them by the files that
 * were added (gitattributes). No disk is read: the caller hands in what it has read. `directory` is the path from
 * the top of the directory where the file lies, empty for the top; it counts only with PS_DIRECTORY. The answer for
 * a path depends on PS_INFO, PS_GLOBAL and the files of the directories above it alone. So a walk may add each file
 * as it enters the file's directory, before it asks about what lies there, and answers that were given before stay
 * true.
 *
 * A file takes the place of the one that was added there: the empty text takes it away. The macro `binary` is built
 * in. Patterns are compared with case, whatever case the specs ask for. A ps_search with files takes no list of
 * ps_search_assign, nor files after a list: PS_MIXED. A text for PS_INFO says what lists would, and counts over all
 * files. ps_search_share gives no files on.
 *
 * A text may hold any bytes, and is never at fault: `left_out` tells which lines git leaves out, and is written only
 * where the answer is PS_OK. PS_OK; or PS_EMPTY, PS_MEMORY, PS_MIXED, or PS_PREFIX where the directory isn't clean
 * or `place` is no place; then nothing has changed. It takes memory for what the lines say, and its cost is linear
 * in the bytes of the text. A question looks once at each rule of the files above its path, for each spec with
 * attributes that it comes to.
 */
uint32_t ps_search_add_attributes(ps_search *search, uint32_t place, const uint8_t *directory, size_t directory_length,
                                  const uint8_t *text, size_t text_length, ps_left_out *left_out);

/* Frees what the search holds, and leaves it empty. */
void ps_search_free(ps_search *search);

/* Whether a ps_search is empty: PS_YES or PS_NO. It takes no memory. */
uint32_t ps_search_is_empty(ps_search *search);

/* ---- questions: PS_YES or PS_NO */

/*
 * Whether the search selects a path. `found` is always written, and tells which spec settles it. The empty path is
 * no entry: any search selects it. An empty ps_search selects nothing: PS_NO, with PS_UNSETTLED and zeros.
 *
 * It takes no memory where no attributes were given. With those of ps_search_assign or of attribute files, memory
 * may run out in a look-up. The answer is then PS_YES, with PS_NO_MEMORY and zeros: a caller that ignores `found`
 * may get a path too many, but never loses one. Check `found` before you delete what is selected.
 *
 * A directory's path has no slash at its end: `:(glob)s*` selects the directory `src`, but not `src/`. The cost
 * grows with the specs whose head begins the path: they are asked in search order, up to the first that matches. The
 * head of a spec is its path before the first wildcard byte; without case, it is what the spec has kept of the
 * prefix.
 */
uint32_t ps_search_match(ps_search *search, const uint8_t *path, size_t path_length, bool is_dir, ps_match *found);

/* The answer of ps_search_match alone. It doesn't tell that memory ran out. */
uint32_t ps_search_selects(ps_search *search, const uint8_t *path, size_t path_length, bool is_dir);

/*
 * Whether a walk may skip a directory, since nothing below it is selected, whatever attributes paths have. An empty
 * ps_search skips nothing: PS_NO. A directory's path has no slash at its end: for the spec `src/lib` a walk must enter
 * `src`, but the answer to `src/` is PS_YES, and `src/lib` is lost. It takes no memory.
 */
uint32_t ps_search_may_skip(ps_search *search, const uint8_t *directory, size_t directory_length);

/*
 * Whether something at or below a path can match. At PS_NO nothing there is selected, whatever attributes paths have.
 * For an empty ps_search it is PS_YES. For a file, is_dir is false. A directory's path has no slash at its end: for
 * the spec `src/lib` the answer to `src` is PS_YES, but to `src/` it is PS_NO, and `src/lib` is lost. It takes no
 * memory.
 */
uint32_t ps_search_can_match(ps_search *search, const uint8_t *path, size_t path_length, bool is_dir);

/* ---- many paths */

/*
 * Whether the search selects each of many paths, for a caller to whom a call costs more than a match. The paths are
 * texts, each ended by the byte 0, which the last may lack. Only here, slashes at a path's end say that it is a
 * directory's, and are no part of it.
 *
 * The answers of ps_search_match, PS_YES or PS_NO, are written to the first bytes of `answers` in the order of the
 * paths, as many as there is room for, and how many paths there are to `count`. PS_OK; or PS_EMPTY, and they are
 * PS_NO; or PS_MEMORY where memory ran out for some path, and its answer is PS_YES: ps_search_match tells which. It
 * takes memory only as ps_search_match does, and none for a path.
 */
uint32_t ps_search_match_all(ps_search *search, const uint8_t *paths, size_t paths_length, uint8_t *answers,
                             size_t answers_length, size_t *count);

/* ---- texts */

/*
 * Each of these copies a text to the first bytes of `room`, as many as there is room for, writes its whole length
 * to `length`, and answers PS_YES; or PS_NO where there is no such text, or PS_EMPTY, and then the room is as
 * before and the length 0. They take no memory.
 */

/* What all selected paths begin with, but for the empty path; it may be empty. */
uint32_t ps_search_common_prefix(ps_search *search, uint8_t *room, size_t room_length, size_t *length);

/* The directory at or below which all selected paths lie, as long as the includes' common prefix tells one. PS_NO where
 * there is no include, and where it is the top. */
uint32_t ps_search_longest_common_directory(ps_search *search, uint8_t *room, size_t room_length, size_t *length);

/* What the first include has kept of the prefix. It may be empty, and is where there is no include. */
uint32_t ps_search_prefix_directory(ps_search *search, uint8_t *room, size_t room_length, size_t *length);

/* The name of a fault's kind, as `MissingParen`. */
uint32_t ps_fault_name(uint32_t kind, uint8_t *room, size_t room_length, size_t *length);

/*
 * Each of these tells the message of a fault, for people: its words may change. It reads again what is at fault, at
 * the same cost, and takes memory. PS_YES where there is a fault; PS_NO where nothing is at fault; or PS_MEMORY, or
 * PS_PREFIX where the prefix isn't clean.
 */

/* The message of the fault that ps_search_new tells of the same texts. */
uint32_t ps_search_message(const uint8_t *specs, size_t specs_length, const uint8_t *prefix, size_t prefix_length,
                           const uint8_t *root, size_t root_length, uint32_t defaults, uint8_t *room, size_t room_length,
                           size_t *length);

/* The message of the fault that ps_search_from_lines tells of the same text. */
uint32_t ps_lines_message(const uint8_t *text, size_t text_length, const uint8_t *prefix, size_t prefix_length,
                          const uint8_t *root, size_t root_length, uint32_t defaults, uint8_t *room, size_t room_length,
                          size_t *length);

/* The message of the fault that ps_search_assign tells of the same list; never PS_PREFIX. */
uint32_t ps_list_message(const uint8_t *list, size_t list_length, uint8_t *room, size_t room_length, size_t *length);

/* ---- the environment, and the version */

/*
 * The bits of the defaults that the words of GIT_LITERAL_PATHSPECS, GIT_ICASE_PATHSPECS, GIT_GLOB_PATHSPECS and
 * GIT_NOGLOB_PATHSPECS ask for. A variable that isn't set is handed in as the empty word, which says the same.
 * PS_OK; or PS_FAULT, with PS_FAULT_NOT_TRUTH or PS_FAULT_GLOB_AND_NO_GLOB and the number 0, and then `defaults` is as
 * before. `fault` is written only where the answer is PS_FAULT. It takes no memory.
 */
uint32_t ps_defaults_from_words(const uint8_t *literal, size_t literal_length, const uint8_t *icase, size_t icase_length,
                                const uint8_t *glob, size_t glob_length, const uint8_t *noglob, size_t noglob_length,
                                uint32_t *defaults, ps_fault *fault);

/* The number of these declarations, PS_VERSION of the header that the library was built with. */
uint32_t ps_version(void);

#ifdef __cplusplus
}
#endif

#endif
