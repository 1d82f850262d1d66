/* Refuses each allocation of a search in turn: the answer is PS_MEMORY and nothing is kept. A match takes none, unless
 * attributes were given; then each of its own is refused in turn: the answer is PS_YES with PS_NO_MEMORY. */
#include "pathspec.h"

#include <stdio.h>
#include <stdlib.h>
#include <string.h>

#define BYTES(text) (const uint8_t *)(text), sizeof(text) - 1

void *__libc_malloc(size_t size);
void *__libc_realloc(void *block, size_t size);
void __libc_free(void *block);

static long left = -1, live, requests;

static int is_refused(void)
{
    requests++;
    return left >= 0 && left-- == 0;
}

void *malloc(size_t size)
{
    void *block = is_refused() ? NULL : __libc_malloc(size);
    live += block != NULL;
    return block;
}

void *realloc(void *old, size_t size)
{
    void *block = is_refused() ? NULL : __libc_realloc(old, size);
    live += !old && block;
    return block;
}

void free(void *block)
{
    live -= block != NULL;
    __libc_free(block);
}

static uint32_t make(ps_search *search, ps_search *other, ps_fault *fault)
{
    static const char specs[] = "src/*.c\0:!gen\0:(icase)x*y*z\0:(glob,attr:a -b c=d)**/q\0:!a/**";
    const uint8_t *texts = (const uint8_t *)specs;
    uint32_t status = ps_search_new(search, texts, sizeof specs, BYTES("d/e"), BYTES("/r"), PS_ICASE, fault);
    if (status == PS_OK)
        status = ps_search_assign(search, BYTES("d/e/q"), BYTES("a -b c=d"), fault);
    return status == PS_OK ? ps_search_share(search, other) : status;
}

/* How many allocations a match takes that asks for attributes; -1 where a refusal isn't answered as it should be. */
static long refuse_in_match(ps_search *search)
{
    for (long refused = 0;; refused++) {
        ps_match found;
        left = refused;
        uint32_t selected = ps_search_match(search, BYTES("d/e/q"), false, &found);
        int was_refused = left < 0;
        left = -1;
        if (selected != PS_YES || found.is_excluded)
            return -1;
        if (!was_refused)
            return found.kind == PS_WILDCARD && found.number == 3 ? refused : -1;
        if (found.kind != PS_NO_MEMORY || found.number)
            return -1;
    }
}

/* Whether many paths take as many, of which each is refused in turn: then the first is selected, and the others are answered. */
static int refuse_in_matches(ps_search *search, long wanted)
{
    for (long refused = 0;; refused++) {
        uint8_t answers[4] = { 9, 9, 9, 9 };
        size_t count;
        left = refused;
        uint32_t status = ps_search_match_all(search, BYTES("d/e/q\0d/e/src/a.c\0x"), answers, sizeof answers, &count);
        int was_refused = left < 0;
        left = -1;
        if (count != 3 || answers[0] != PS_YES || answers[1] != PS_YES || answers[2] != PS_NO || answers[3] != 9)
            return 0;
        if (!was_refused)
            return status == PS_OK && refused == wanted;
        if (status != PS_MEMORY)
            return 0;
    }
}

static const char *const files[][2] = {
    { "", "[attr]m a -b\n**/*.q m\nz* -a\n!x\n\"q\\t\" a\n" },
    { "d", "*.q c=d x=y\n% %\n" },
};

/* Adds both files, again where memory ran out, which is counted. */
static uint32_t add_files(ps_search *search, long *failed)
{
    uint32_t status = PS_OK;
    for (size_t number = 0; number < 2 && status == PS_OK; number++)
        for (int turn = 0; turn < 2; turn++) {
            const char *directory = files[number][0], *text = files[number][1];
            ps_left_out left_out = { 9, 9, 9 };
            status = ps_search_add_attributes(search, PS_DIRECTORY, (const uint8_t *)directory, strlen(directory),
                                              (const uint8_t *)text, strlen(text), &left_out);
            if (status != PS_MEMORY)
                break;
            *failed += 1;
            /* nothing was added, nor told, and what was added before stays */
            if (left_out.count != 9 || ps_search_selects(search, BYTES("d/e.q"), false) != (number ? PS_YES : PS_NO))
                return PS_FAULT;
        }
    return status;
}

/* Refuses each allocation of adding two files, and of a match by them, in turn. How many there are, or -1. */
static long refuse_in_files(long *matched)
{
    static const char specs[] = ":(attr:a -b !c)*\0:(attr:x=y c=d)d/e.q/";
    for (long refused = 0;; refused++) {
        ps_search search = PS_SEARCH_INIT;
        ps_fault fault;
        long before = live, failed = 0;
        if (ps_search_new(&search, (const uint8_t *)specs, sizeof specs, BYTES(""), BYTES(""), 0, &fault) != PS_OK)
            return -1;
        left = refused;
        uint32_t status = add_files(&search, &failed);
        int was_refused = left < 0;
        left = -1;
        if (status != PS_OK || failed != was_refused || ps_search_selects(&search, BYTES("d/e.q"), false) != PS_NO)
            return -1;
        for (*matched = 0;; *matched += 1) {
            ps_match found;
            left = *matched;
            uint32_t selected = ps_search_match(&search, BYTES("d/e.q"), true, &found);
            int ran_out = left < 0;
            left = -1;
            if (selected != PS_YES || found.kind != (ran_out ? PS_NO_MEMORY : PS_VERBATIM))
                return -1;
            if (!ran_out)
                break;
        }
        ps_search_free(&search);
        if (live != before)
            return -1;
        if (!was_refused)
            return refused;
    }
}

int main(void)
{
    long asked_files, added = refuse_in_files(&asked_files);
    if (added < 0)
        return 1;
    for (long refused = 0;; refused++) {
        ps_search search = PS_SEARCH_INIT, other = PS_SEARCH_INIT;
        ps_fault fault;
        ps_match found;
        long before = live;
        left = refused;
        uint32_t status = make(&search, &other, &fault);
        int was_refused = left < 0;
        left = -1;
        if (was_refused ? status != PS_MEMORY || other.at : status != PS_OK)
            return 1;
        long asked = requests, matched = 0;
        if (status == PS_OK && !(ps_search_match(&other, BYTES("d/e/src/a.c"), false, &found) && found.kind == PS_WILDCARD))
            return 1;
        uint8_t answers[2];
        size_t count;
        if (status == PS_OK && ps_search_match_all(&other, BYTES("d/e/src/a.c\0d/e/q"), answers, sizeof answers, &count) != PS_OK)
            return 1;
        if (requests != asked)
            return 1;
        if (status == PS_OK && ((matched = refuse_in_match(&search)) < 0 || !refuse_in_matches(&search, matched)))
            return 1;
        ps_search_free(&search);
        ps_search_free(&other);
        if (live != before)
            return 1;
        if (!was_refused) {
            printf("refusals: %ld, nothing kept; a match takes none, and %ld with attributes\n", refused, matched);
            printf("refusals: %ld of two attribute files, nothing kept; a match by them takes %ld\n", added, asked_files);
            return 0;
        }
    }
}
