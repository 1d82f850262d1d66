/* A matcher that goes back over the text, after git's wildmatch: only for times beside those of bench/globs. Standard
 * input has rows `name<TAB>mode<TAB>case<TAB>pattern<TAB>text`, an empty line, and paths: a row without a text is matched
 * with each path, another with its text, and given up after 10^8 calls. Classes of brackets are left out. */
#include <ctype.h>
#include <stdio.h>
#include <stdlib.h>
#include <string.h>
#include <time.h>

typedef unsigned char uchar;

enum { MATCH = 0, NO_MATCH = 1, STOP = -1, STOP_TO_DEEP = -2 };
enum { FOLD = 1, PATHS = 2 };

static long calls;

static int folded(int c, int flags) { return (flags & FOLD) && c >= 'A' && c <= 'Z' ? c + 32 : c; }

/* Whether the bracket at p, behind its `[`, takes the byte; *end is its `]`, or null where it has none. */
static int bracket(const uchar *p, int c, int flags, const uchar **end)
{
    int negated = *p == '!' || *p == '^', taken = 0, last = 0;
    *end = NULL;
    if (negated)
        p++;
    int first = 1;
    for (; *p && (first || *p != ']'); p++, first = 0) {
        int low = *p;
        if (low == '\\' && !(low = *++p))
            return 0;
        if (*p == '-' && last && p[1] && p[1] != ']') {
            int high = *++p;
            if (high == '\\' && !(high = *++p))
                return 0;
            if (c >= last && c <= high)
                taken = 1;
            if ((flags & FOLD) && islower(c) && toupper(c) >= last && toupper(c) <= high)
                taken = 1;
            last = 0;
            continue;
        }
        if (low == c || ((flags & FOLD) && folded(low, flags) == c))
            taken = 1;
        last = low;
    }
    if (!*p)
        return 0;
    *end = p;
    return taken != negated && !((flags & PATHS) && c == '/');
}

static int wild(const uchar *start, const uchar *p, const uchar *text, int flags)
{
    if (++calls > 100000000)
        return STOP;
    for (; *p; p++, text++) {
        int c = folded(*text, flags), b = *p;
        if (!*text && b != '*')
            return STOP;
        switch (b) {
        case '\\':
            b = *++p;
            if (!b)
                return STOP;
            /* fall through */
        default:
            if (folded(b, flags) != c)
                return NO_MATCH;
            continue;
        case '?':
            if ((flags & PATHS) && *text == '/')
                return NO_MATCH;
            continue;
        case '[': {
            const uchar *end;
            int taken = bracket(p + 1, c, flags, &end);
            if (!end)
                return STOP;
            if (!taken)
                return NO_MATCH;
            p = end;
            continue;
        }
        case '*': {
            int slashes = 1;
            if (*++p == '*') {
                const uchar *before = p - 1;
                while (*++p == '*')
                    ;
                if (!(flags & PATHS)) {
                    slashes = 1;
                } else if ((before == start || before[-1] == '/') &&
                           (!*p || *p == '/' || (*p == '\\' && p[1] == '/'))) {
                    if (*p == '/' && wild(start, p + 1, text, flags) == MATCH)
                        return MATCH;
                } else {
                    slashes = 0;
                }
            } else {
                slashes = !(flags & PATHS);
            }
            if (!*p)
                return !slashes && strchr((const char *)text, '/') ? STOP_TO_DEEP : MATCH;
            if (!slashes && *p == '/') {
                const char *slash = strchr((const char *)text, '/');
                if (!slash)
                    return STOP;
                text = (const uchar *)slash;
                break;
            }
            for (c = folded(*text, flags); c; c = folded(*++text, flags)) {
                if (!strchr("*?[\\", *p)) {
                    int wanted = folded(*p, flags);
                    while ((c = folded(*text, flags)) && (slashes || c != '/') && c != wanted)
                        text++;
                    if (c != wanted)
                        return slashes ? STOP : STOP_TO_DEEP;
                }
                int found = wild(start, p, text, flags);
                if (found != NO_MATCH) {
                    if (!slashes || found != STOP_TO_DEEP)
                        return found;
                } else if (!slashes && c == '/') {
                    return STOP_TO_DEEP;
                }
            }
            return STOP;
        }
        }
    }
    return *text ? NO_MATCH : MATCH;
}

static double now(void)
{
    struct timespec t;
    clock_gettime(CLOCK_MONOTONIC, &t);
    return t.tv_sec * 1e9 + t.tv_nsec;
}

/* The line at *rest, which is moved behind it, or null at the end. */
static char *next_line(char **rest)
{
    char *line = *rest, *end;
    if (!*line)
        return NULL;
    end = strchr(line, '\n');
    if (end)
        *end = 0;
    *rest = end ? end + 1 : line + strlen(line);
    return line;
}

static void time_row(char *row, char **paths, size_t count)
{
    char *part[5];
    for (int i = 0; i < 5; i++)
        part[i] = strsep(&row, "\t");
    int flags = (!strcmp(part[1], "paths") ? PATHS : 0) | (!strcmp(part[2], "fold") ? FOLD : 0);
    const uchar *pattern = (const uchar *)part[3];
    int alone = part[4] && *part[4];
    long matched = 0;
    double least = 0;
    for (int run = 0; run < 3; run++) {
        double begun = now(), taken;
        matched = 0;
        calls = 0;
        for (size_t i = 0; i < (alone ? 1 : count); i++)
            matched += wild(pattern, pattern, (const uchar *)(alone ? part[4] : paths[i]), flags) == MATCH;
        taken = now() - begun;
        if (!run || taken < least)
            least = taken;
    }
    if (calls <= 100000000)
        printf("%s\t%ld\t%.0f\n", part[0], matched, least);
}

int main(void)
{
    size_t room = 1 << 28, size, rows = 0, count = 0;
    char *all = malloc(room), *rest = all, *line;
    if (!all)
        return 1;
    size = fread(all, 1, room - 1, stdin);
    all[size] = 0;
    char **lines = malloc((size + 1) * sizeof *lines);
    if (!lines)
        return 1;
    while ((line = next_line(&rest))) {
        if (!*line)
            rows = count;
        else
            lines[count++] = line;
    }
    for (size_t i = 0; i < rows; i++)
        time_row(lines[i], lines + rows, count - rows);
    return 0;
}
