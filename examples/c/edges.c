/* Calls at the edges of what pathspec.h allows. It prints how many answers it compared, and ends with 1 at the first
 * that isn't as it should be. */
#include "pathspec.h"

#include <pthread.h>
#include <stdio.h>
#include <stdlib.h>
#include <string.h>

#define BYTES(text) (const uint8_t *)(text), sizeof(text) - 1

static unsigned long compared;

static void expect_at(int line, unsigned long got, unsigned long wanted)
{
    if (got != wanted) {
        fprintf(stderr, "edges.c:%d: %lu, not %lu\n", line, got, wanted);
        exit(1);
    }
    compared++;
}

#define EXPECT(got, wanted) expect_at(__LINE__, (unsigned long)(got), (unsigned long)(wanted))

static uint8_t room[128];
static size_t room_used;

/* The whole of the text that the last call copied to the room. */
static void expect_text_at(int line, const char *wanted)
{
    if (room_used != strlen(wanted) || memcmp(room, wanted, room_used)) {
        fprintf(stderr, "edges.c:%d: \"%.*s\", not \"%s\"\n", line, (int)room_used, (const char *)room, wanted);
        exit(1);
    }
    compared++;
}

#define EXPECT_TEXT(call, wanted) (EXPECT(call, PS_YES), expect_text_at(__LINE__, wanted))
#define ROOM room, sizeof room, &room_used

static uint32_t make(ps_search *search, const void *specs, size_t length, uint32_t defaults, ps_fault *fault)
{
    return ps_search_new(search, specs, length, BYTES(""), BYTES(""), defaults, fault);
}

static uint32_t ask(ps_search *search, const char *path, bool is_dir)
{
    ps_match found;
    return ps_search_match(search, (const uint8_t *)path, strlen(path), is_dir, &found);
}

/* An empty search is answered, also once it was freed, and twice. */
static void empty_ones(void)
{
    ps_search search = PS_SEARCH_INIT, other = PS_SEARCH_INIT;
    ps_fault fault = { 7, 77 };
    uint8_t three[4] = "abc";
    for (int turn = 0; turn < 2; turn++) {
        size_t length = 9;
        ps_match found = { 9, 9, 9 };
        EXPECT(ps_search_is_empty(&search), PS_YES);
        EXPECT(ps_search_match(&search, BYTES("a"), false, &found), PS_NO);
        EXPECT(found.number == 0 && found.kind == PS_UNSETTLED && found.is_excluded == 0, true);
        EXPECT(ps_search_may_skip(&search, BYTES("a")), PS_NO);
        EXPECT(ps_search_can_match(&search, BYTES("a"), true), PS_YES);
        EXPECT(ps_search_common_prefix(&search, three, sizeof three, &length), PS_EMPTY);
        EXPECT(length, 0);
        EXPECT(memcmp(three, "abc", 4), 0);
        EXPECT(ps_search_assign(&search, BYTES("a"), BYTES("x"), &fault), PS_EMPTY);
        EXPECT(ps_search_share(&search, &other), PS_EMPTY);
        EXPECT(make(&search, "a", 1, 0, &fault), PS_OK);
        EXPECT(fault.number == 7 && fault.kind == 77, true);
        EXPECT(ps_search_is_empty(&search), PS_NO);
        ps_search_free(&search);
        ps_search_free(&search);
        EXPECT(search.at == NULL, true);
    }
}

/* Each kind of fault, with its name and a spec that has it. */
static void kinds(void)
{
    static const struct {
        uint32_t kind;
        const char *name, *spec;
    } rows[] = {
        { PS_FAULT_EMPTY, "Empty", "" },
        { PS_FAULT_UNIMPLEMENTED_SHORT, "UnimplementedShort", ":%a" },
        { PS_FAULT_MISSING_PAREN, "MissingParen", ":(top" },
        { PS_FAULT_INVALID_KEYWORD, "InvalidKeyword", ":(nope)a" },
        { PS_FAULT_LITERAL_WITH_GLOB, "LiteralWithGlob", ":(literal,glob)a" },
        { PS_FAULT_SECOND_ATTRIBUTES, "SecondAttributes", ":(attr:a,attr:b)a" },
        { PS_FAULT_INVALID_PREFIX, "InvalidPrefix", ":(prefix:x)a" },
        { PS_FAULT_EMPTY_ATTRIBUTES, "EmptyAttributes", ":(attr:)a" },
        { PS_FAULT_INVALID_NAME, "InvalidName", ":(attr:%)a" },
        { PS_FAULT_INVALID_VALUE_BYTE, "InvalidValueByte", ":(attr:a=%)a" },
        { PS_FAULT_TRAILING_ESCAPE, "TrailingEscape", ":(attr:a=b\\)a" },
        { PS_FAULT_OUTSIDE_ROOT, "OutsideRoot", "/x" },
        { PS_FAULT_LEAVES_REPOSITORY, "LeavesRepository", "../../x" },
        { PS_FAULT_NOT_TRUTH, "NotTruth", NULL },
        { PS_FAULT_GLOB_AND_NO_GLOB, "GlobAndNoGlob", NULL },
    };
    ps_search search = PS_SEARCH_INIT;
    for (size_t row = 0; row < sizeof rows / sizeof *rows; row++) {
        ps_fault fault = { 9, 99 };
        EXPECT(rows[row].kind, row + 1);
        EXPECT_TEXT(ps_fault_name(rows[row].kind, ROOM), rows[row].name);
        if (!rows[row].spec)
            continue;
        const uint8_t *spec = (const uint8_t *)rows[row].spec;
        EXPECT(ps_search_new(&search, spec, strlen(rows[row].spec) + 1, BYTES("a"), BYTES("/r"), 0, &fault), PS_FAULT);
        EXPECT(fault.number, 0);
        EXPECT(fault.kind, rows[row].kind);
    }
    EXPECT(ps_fault_name(0, ROOM), PS_NO);
    EXPECT(ps_fault_name(16, ROOM), PS_NO);
    EXPECT(room_used, 0);
}

/* A fault at each number of a list, and a search that is made over another. */
static void faults(void)
{
    ps_search search = PS_SEARCH_INIT;
    ps_fault fault;
    for (size_t bad = 0; bad < 8; bad++) {
        uint8_t specs[128];
        size_t length = 0;
        for (size_t number = 0; number < 8; number++) {
            const char *spec = number == bad ? ":(nope)x" : "src/*.c";
            memcpy(specs + length, spec, strlen(spec) + 1);
            length += strlen(spec) + 1;
        }
        EXPECT(make(&search, "a", 1, 0, &fault), PS_OK);
        EXPECT(make(&search, specs, length - 1, 0, &fault), PS_FAULT);
        EXPECT(fault.number, bad);
        EXPECT(fault.kind, PS_FAULT_INVALID_KEYWORD);
        EXPECT(ps_search_is_empty(&search), PS_YES);
    }
    EXPECT(make(&search, "a\0", 3, 0, &fault), PS_FAULT);
    EXPECT(fault.number, 1);
    EXPECT(fault.kind, PS_FAULT_EMPTY);
    EXPECT(ps_search_new(&search, BYTES("a"), BYTES("b//c"), BYTES(""), 0, &fault), PS_PREFIX);
    EXPECT(ps_search_new(&search, BYTES("b\0../../x"), BYTES("sub"), BYTES("/r"), 0, &fault), PS_FAULT);
    EXPECT(fault.number, 1);
    EXPECT(fault.kind, PS_FAULT_LEAVES_REPOSITORY);
    EXPECT(ps_search_from_lines(&search, BYTES("a\n\nb"), BYTES(""), BYTES(""), 0, &fault), PS_FAULT);
    EXPECT(fault.number, 1);
    EXPECT(ps_search_from_lines(&search, BYTES("a\r\n:!a/b\n"), BYTES(""), BYTES(""), 0, &fault), PS_OK);
    EXPECT(fault.number, 1);
    EXPECT(fault.kind, PS_FAULT_EMPTY);
    EXPECT(ask(&search, "a/c", false), PS_YES);
    EXPECT(ask(&search, "a/b", false), PS_NO);
    ps_search_free(&search);
}

/* A prefix and a root that are two: what lies below the one, and an absolute path in the other. */
static void prefixes(void)
{
    ps_search search = PS_SEARCH_INIT;
    ps_fault fault;
    for (int turn = 0; turn < 2; turn++) {
        uint32_t made = turn ? ps_search_from_lines(&search, BYTES("b\n/r/c\n"), BYTES("a"), BYTES("/r"), 0, &fault)
                             : ps_search_new(&search, BYTES("b\0/r/c"), BYTES("a"), BYTES("/r"), 0, &fault);
        EXPECT(made, PS_OK);
        EXPECT(ask(&search, "a/b", false), PS_YES);
        EXPECT(ask(&search, "b", false), PS_NO);
        EXPECT(ask(&search, "c", false), PS_YES);
    }
    EXPECT_TEXT(ps_search_message(BYTES("b\0/s/c"), BYTES("a"), BYTES("/r"), 0, ROOM),
                "spec 1: path is not inside of the repository: /s/c");
    EXPECT_TEXT(ps_lines_message(BYTES("../../b\n"), BYTES("a"), BYTES("/r"), 0, ROOM),
                "spec 0: path leaves the repository: ../../b");
    /* the first include is the third spec, and has kept more of the prefix than the excludes */
    EXPECT(ps_search_new(&search, BYTES(":!../x\0:!../../y\0z"), BYTES("p/q"), BYTES(""), 0, &fault), PS_OK);
    EXPECT_TEXT(ps_search_prefix_directory(&search, ROOM), "p/q");
    ps_search_free(&search);
}

/* What each bit of the defaults asks for, no specs, and specs without an end. */
static void defaults(void)
{
    ps_search search = PS_SEARCH_INIT;
    ps_fault fault;
    EXPECT(make(&search, "", 0, 0, &fault), PS_OK);
    EXPECT(ask(&search, "any", false), PS_YES);
    EXPECT(ps_search_new(&search, BYTES(""), BYTES("sub"), BYTES(""), 0, &fault), PS_OK);
    EXPECT(ask(&search, "sub/a", false), PS_YES);
    EXPECT(ask(&search, "a", false), PS_NO);
    EXPECT(make(&search, "*.c", 3, 0, &fault), PS_OK);
    EXPECT(ask(&search, "d/a.c", false), PS_YES);
    EXPECT(make(&search, "*.c", 4, PS_GLOB, &fault), PS_OK);
    EXPECT(ask(&search, "d/a.c", false), PS_NO);
    EXPECT(make(&search, "*.c", 4, PS_NOGLOB, &fault), PS_OK);
    EXPECT(ask(&search, "a.c", false), PS_NO);
    EXPECT(ask(&search, "*.c", false), PS_YES);
    EXPECT(make(&search, "a", 2, PS_ICASE, &fault), PS_OK);
    EXPECT(ask(&search, "A", false), PS_YES);
    EXPECT(make(&search, ":(top)a", 8, PS_LITERAL, &fault), PS_OK);
    EXPECT(ask(&search, ":(top)a", false), PS_YES);
    EXPECT(make(&search, "d/", 3, 0, &fault), PS_OK);
    EXPECT(ask(&search, "d", true), PS_YES);
    EXPECT(ask(&search, "d", false), PS_NO);
    EXPECT(ps_search_can_match(&search, BYTES("d"), true), PS_YES);
    EXPECT(ps_search_can_match(&search, BYTES("d"), false), PS_NO);
    ps_search_free(&search);
}

/* The words of variables. */
static void words(void)
{
    ps_fault fault = { 7, 77 };
    uint32_t bits = 99;
    EXPECT(ps_defaults_from_words(BYTES(""), BYTES(""), BYTES(""), BYTES(""), &bits, &fault), PS_OK);
    EXPECT(bits, 0);
    EXPECT(ps_defaults_from_words(BYTES("true"), BYTES("1"), BYTES("on"), BYTES("yes"), &bits, &fault), PS_OK);
    EXPECT(bits, PS_LITERAL | PS_ICASE);
    EXPECT(ps_defaults_from_words(BYTES("1"), BYTES(""), BYTES(""), BYTES(""), &bits, &fault), PS_OK);
    EXPECT(bits, PS_LITERAL);
    EXPECT(ps_defaults_from_words(BYTES(""), BYTES("1"), BYTES(""), BYTES("1"), &bits, &fault), PS_OK);
    EXPECT(bits, PS_ICASE | PS_NOGLOB);
    EXPECT(ps_defaults_from_words(BYTES("no"), BYTES("off"), BYTES("2k"), BYTES("0"), &bits, &fault), PS_OK);
    EXPECT(bits, PS_GLOB);
    EXPECT(fault.number == 7 && fault.kind == 77, true);
    EXPECT(ps_defaults_from_words(BYTES(""), BYTES("maybe"), BYTES(""), BYTES(""), &bits, &fault), PS_FAULT);
    EXPECT(fault.number, 0);
    EXPECT(fault.kind, PS_FAULT_NOT_TRUTH);
    EXPECT(ps_defaults_from_words(BYTES(""), BYTES(""), BYTES("1"), BYTES("1"), &bits, &fault), PS_FAULT);
    EXPECT(fault.kind, PS_FAULT_GLOB_AND_NO_GLOB);
    EXPECT(bits, PS_GLOB);
    EXPECT(ps_version(), PS_VERSION);
}

/* Pruning, and the texts with room that is too short, that is none, and that is enough. */
static void walks(void)
{
    ps_search search = PS_SEARCH_INIT;
    ps_fault fault;
    ps_match found;
    uint8_t dots[16] = "................";
    size_t length;
    EXPECT(make(&search, "src/a\0src/b\0:!src/x", 20, 0, &fault), PS_OK);
    EXPECT(ps_search_may_skip(&search, BYTES("src")), PS_NO);
    EXPECT(ps_search_may_skip(&search, BYTES("src/x")), PS_YES);
    EXPECT(ps_search_may_skip(&search, BYTES("doc")), PS_YES);
    EXPECT(ps_search_can_match(&search, BYTES("src"), true), PS_YES);
    EXPECT(ps_search_can_match(&search, BYTES("doc"), true), PS_NO);
    /* a slash at the end loses what lies below */
    EXPECT(ps_search_may_skip(&search, BYTES("src/")), PS_YES);
    EXPECT(ps_search_can_match(&search, BYTES("src/"), true), PS_NO);
    EXPECT(ps_search_common_prefix(&search, dots, 3, &length), PS_YES);
    EXPECT(length, 4);
    EXPECT(memcmp(dots, "src.", 4), 0);
    EXPECT_TEXT(ps_search_common_prefix(&search, ROOM), "src/");
    EXPECT(ps_search_longest_common_directory(&search, dots, 0, &length), PS_YES);
    EXPECT(length, 3);
    EXPECT_TEXT(ps_search_prefix_directory(&search, ROOM), "");
    EXPECT(ps_search_match(&search, BYTES("src/x/y"), false, &found), PS_NO);
    EXPECT(found.number, 2);
    EXPECT(found.kind, PS_BELOW);
    EXPECT(found.is_excluded, 1);
    EXPECT(make(&search, "*.c", 4, 0, &fault), PS_OK);
    EXPECT(ps_search_longest_common_directory(&search, dots, sizeof dots, &length), PS_NO);
    EXPECT(make(&search, ":(glob)s*", 10, 0, &fault), PS_OK);
    EXPECT(ask(&search, "src", true), PS_YES);
    EXPECT(ask(&search, "src/", true), PS_NO);
    ps_search_free(&search);
}

/* The messages as a whole, of the first spec and of another; none where nothing is at fault. */
static void messages(void)
{
    uint8_t dots[16] = "................";
    size_t length;
    EXPECT_TEXT(ps_search_message(BYTES(":(b"), BYTES(""), BYTES(""), 0, ROOM),
                "spec 0: missing ')' at the end of pathspec magic in :(b");
    EXPECT_TEXT(ps_search_message(BYTES("a\0:(nope)b"), BYTES(""), BYTES(""), 0, ROOM),
                "spec 1: found an unknown keyword in long magic: nope");
    EXPECT(ps_search_message(BYTES("a\0:(b"), BYTES(""), BYTES(""), 0, dots, 8, &length), PS_YES);
    EXPECT(length, 55);
    EXPECT(memcmp(dots, "spec 1: ........", sizeof dots), 0);
    EXPECT_TEXT(ps_lines_message(BYTES("\na\n"), BYTES(""), BYTES(""), 0, ROOM),
                "spec 0: an empty string is not a valid pathspec");
    EXPECT_TEXT(ps_lines_message(BYTES("a\n:%b\n"), BYTES(""), BYTES(""), 0, ROOM),
                "spec 1: unimplemented short keyword: '%'");
    EXPECT_TEXT(ps_list_message(BYTES("a=b\\"), ROOM), "escape at the end of attribute value: b\\");
    EXPECT_TEXT(ps_list_message(BYTES(""), ROOM), "attribute list is empty");
    EXPECT_TEXT(ps_list_message(BYTES("a b=%"), ROOM), "invalid byte in attribute value: '%'");
    EXPECT(ps_search_message(BYTES(":(b"), BYTES(""), BYTES(""), PS_LITERAL, ROOM), PS_NO);
    EXPECT(room_used, 0);
    EXPECT(ps_search_message(BYTES("a"), BYTES("b//c"), BYTES(""), 0, ROOM), PS_PREFIX);
    EXPECT(ps_lines_message(BYTES("a\n"), BYTES(""), BYTES(""), 0, ROOM), PS_NO);
    EXPECT(ps_lines_message(BYTES("a\n"), BYTES("/"), BYTES(""), 0, ROOM), PS_PREFIX);
    EXPECT(ps_list_message(BYTES("a -b"), ROOM), PS_NO);
    EXPECT(room_used, 0);
}

/* Many paths in one call: each answer is that of the path alone, as far as there is room. */
static void lists(void)
{
    static const char paths[] = "a.c\0src/\0src\0src//\0\0d/\0d\0gen/a.c\0/\0a.o\0last.c";
    static const uint8_t wanted[] = { 1, 1, 0, 1, 1, 1, 0, 0, 1, 0, 1 };
    ps_search search = PS_SEARCH_INIT;
    ps_fault fault;
    uint8_t answers[16];
    size_t count = 99;
    memset(answers, 7, sizeof answers);
    EXPECT(ps_search_match_all(&search, BYTES(paths), answers, sizeof answers, &count), PS_EMPTY);
    EXPECT(count, sizeof wanted);
    for (size_t number = 0; number < sizeof answers; number++)
        EXPECT(answers[number], number < count ? PS_NO : 7);
    EXPECT(make(&search, "*.c\0:(glob)s*/\0d/\0:!gen", 24, 0, &fault), PS_OK);
    for (size_t room = 0; room <= sizeof answers; room++) {
        memset(answers, 7, sizeof answers);
        EXPECT(ps_search_match_all(&search, BYTES(paths), answers, room, &count), PS_OK);
        EXPECT(count, sizeof wanted);
        for (size_t number = 0; number < sizeof answers; number++)
            EXPECT(answers[number], number < room && number < count ? wanted[number] : 7);
    }
    EXPECT(ps_search_match_all(&search, BYTES(""), answers, sizeof answers, &count), PS_OK);
    EXPECT(count, 0);
    EXPECT(ps_search_match_all(&search, BYTES("\0a.c\0"), answers, sizeof answers, &count), PS_OK);
    EXPECT(count, 2);
    /* (the empty path is the top, which any search selects) */
    EXPECT(answers[0] == PS_YES && answers[1] == PS_YES, true);
    /* what attributes say in the end */
    EXPECT(make(&search, ":(attr:x)*", 11, 0, &fault), PS_OK);
    EXPECT(ps_search_assign(&search, BYTES("b"), BYTES("x"), &fault), PS_OK);
    EXPECT(ps_search_match_all(&search, BYTES("a\0b\0b/"), answers, sizeof answers, &count), PS_OK);
    EXPECT(count == 3 && answers[0] == PS_NO && answers[1] == PS_YES && answers[2] == PS_YES, true);
    ps_search_free(&search);
}

/* Attributes: none, some, and a list that can't be read. */
static void attributes(void)
{
    ps_search search = PS_SEARCH_INIT, other = PS_SEARCH_INIT;
    ps_fault fault;
    EXPECT(make(&search, ":(attr:text)*\0:(attr:a=%)b", 27, 0, &fault), PS_FAULT);
    EXPECT(fault.number, 1);
    EXPECT(fault.kind, PS_FAULT_INVALID_VALUE_BYTE);
    EXPECT(make(&search, ":(attr:text)*\0:(attr:!text eol=lf)b", 36, 0, &fault), PS_OK);
    EXPECT(ask(&search, "a", false), PS_NO);
    EXPECT(ps_search_assign(&search, BYTES("a"), BYTES("text"), &fault), PS_OK);
    EXPECT(ask(&search, "a", false), PS_YES);
    EXPECT(ask(&search, "b", false), PS_NO);
    EXPECT(ps_search_assign(&search, BYTES("a"), BYTES("-text"), &fault), PS_OK);
    EXPECT(ask(&search, "a", false), PS_NO);
    EXPECT(ps_search_assign(&search, BYTES("b"), BYTES("eol=lf"), &fault), PS_OK);
    EXPECT(ask(&search, "b", false), PS_YES);
    EXPECT(fault.number, 1);
    EXPECT(ps_search_assign(&search, BYTES("b"), BYTES(""), &fault), PS_FAULT);
    EXPECT(fault.number, 0);
    EXPECT(fault.kind, PS_FAULT_EMPTY_ATTRIBUTES);
    EXPECT(ps_search_assign(&search, BYTES("b"), BYTES("a=b\\"), &fault), PS_FAULT);
    EXPECT(fault.kind, PS_FAULT_TRAILING_ESCAPE);
    EXPECT(ask(&search, "b", false), PS_YES);
    EXPECT(ps_search_share(&search, &other), PS_OK);
    EXPECT(ask(&other, "b", false), PS_NO);
    ps_search_free(&search);
    EXPECT(ps_search_assign(&other, BYTES("b"), BYTES("eol=lf"), &fault), PS_OK);
    EXPECT(ask(&other, "b", false), PS_YES);
    ps_search_free(&other);
}

static uint32_t add(ps_search *search, uint32_t place, const char *directory, const char *text, ps_left_out *left_out)
{
    const uint8_t *path = (const uint8_t *)directory, *bytes = (const uint8_t *)text;
    return ps_search_add_attributes(search, place, path, strlen(directory), bytes, strlen(text), left_out);
}

static void expect_left_out_at(int line, const ps_left_out *left_out, size_t count, size_t first, uint32_t reason)
{
    expect_at(line, left_out->count, count);
    expect_at(line, left_out->line, first);
    expect_at(line, left_out->reason, reason);
}

#define EXPECT_LEFT_OUT(left_out, count, first, reason) expect_left_out_at(__LINE__, left_out, count, first, reason)

/* Attribute files: each place, the deeper over the farther, what is left out, and no lists beside them. */
static void attribute_files(void)
{
    ps_search search = PS_SEARCH_INIT, other = PS_SEARCH_INIT;
    ps_fault fault = { 7, 77 };
    ps_left_out left_out = { 7, 8, 9 };
    EXPECT(add(&search, PS_DIRECTORY, "", "*.c text\n", &left_out), PS_EMPTY);
    EXPECT(make(&search, ":(attr:text)*", 14, 0, &fault), PS_OK);
    static const char *const unclean[] = { "/", "a/", "/a", "a//b" };
    for (size_t number = 0; number < sizeof unclean / sizeof *unclean; number++)
        EXPECT(add(&search, PS_DIRECTORY, unclean[number], "* text\n", &left_out), PS_PREFIX);
    EXPECT(add(&search, 3, "", "* text\n", &left_out), PS_PREFIX);
    EXPECT_LEFT_OUT(&left_out, 7, 8, 9);
    EXPECT(ask(&search, "a.c", false), PS_NO);
    EXPECT(add(&search, PS_DIRECTORY, "", "# all\n*.c text\n", &left_out), PS_OK);
    EXPECT_LEFT_OUT(&left_out, 0, 0, 0);
    EXPECT(ask(&search, "a.c", false), PS_YES);
    EXPECT(ask(&search, "d/e/a.c", false), PS_YES);
    EXPECT(ask(&search, "a.o", false), PS_NO);
    /* the deeper counts, for what lies below it alone, and then the last line of a file */
    EXPECT(add(&search, PS_DIRECTORY, "d", "*.c text\n*.c -text\n", &left_out), PS_OK);
    EXPECT(ask(&search, "d/e/a.c", false), PS_NO);
    EXPECT(ask(&search, "dd/a.c", false), PS_YES);
    EXPECT(add(&search, PS_DIRECTORY, "d/e", "/a.c text", &left_out), PS_OK);
    EXPECT(ask(&search, "d/e/a.c", false), PS_YES);
    EXPECT(ask(&search, "d/e/f/a.c", false), PS_NO);
    /* an empty text takes a file away */
    EXPECT(add(&search, PS_DIRECTORY, "d", "", &left_out), PS_OK);
    EXPECT(ask(&search, "d/a.c", false), PS_YES);
    /* the global file counts under all, that of info over all, and the directory doesn't */
    EXPECT(add(&search, PS_GLOBAL, "//", "*.o text\n*.c -text\n", &left_out), PS_OK);
    EXPECT(ask(&search, "a.o", false), PS_YES);
    EXPECT(ask(&search, "d/a.c", false), PS_YES);
    EXPECT(add(&search, PS_INFO, "//", "a.c !text\n", &left_out), PS_OK);
    EXPECT(ask(&search, "a.c", false), PS_NO);
    EXPECT(ask(&search, "d/e/a.c", false), PS_NO);
    EXPECT(add(&search, PS_INFO, "", "/a.c !text\n", &left_out), PS_OK);
    EXPECT(ask(&search, "d/e/a.c", false), PS_YES);
    /* what git leaves out */
    EXPECT(add(&search, PS_DIRECTORY, "d", "*.o text\n!a text\n[attr]m text\n*.o %\n", &left_out), PS_OK);
    EXPECT_LEFT_OUT(&left_out, 3, 2, PS_LINE_NEGATIVE);
    EXPECT(add(&search, PS_DIRECTORY, "d", "[attr]m text\n", &left_out), PS_OK);
    EXPECT_LEFT_OUT(&left_out, 1, 1, PS_LINE_MACRO);
    EXPECT(add(&search, PS_DIRECTORY, "", "\n\n*.c te%xt\n", &left_out), PS_OK);
    EXPECT_LEFT_OUT(&left_out, 1, 3, PS_LINE_INVALID_NAME);
    char line[2049];
    memset(line, 'a', 2048);
    line[2048] = 0;
    EXPECT(add(&search, PS_DIRECTORY, "", line, &left_out), PS_OK);
    EXPECT_LEFT_OUT(&left_out, 1, 1, PS_LINE_TOO_LONG);
    EXPECT(ps_search_add_attributes(&search, PS_DIRECTORY, BYTES(""), BYTES("\0\n\xff text\n*.b\0.c text\r\n"), &left_out), PS_OK);
    /* no list beside files, and no files beside a list */
    EXPECT(ps_search_assign(&search, BYTES("a.c"), BYTES("text"), &fault), PS_MIXED);
    EXPECT(fault.number == 7 && fault.kind == 77, true);
    EXPECT(add(&search, PS_DIRECTORY, "", "[attr]m text\nb m\n", &left_out), PS_OK);
    EXPECT(ask(&search, "b", false), PS_YES);
    EXPECT(ps_search_share(&search, &other), PS_OK);
    EXPECT(ask(&other, "b", false), PS_NO);
    EXPECT(ask(&other, "a.o", false), PS_NO);
    ps_search_free(&search);
    EXPECT(add(&search, PS_DIRECTORY, "", "", &left_out), PS_EMPTY);
    EXPECT(add(&other, PS_DIRECTORY, "", "b text", &left_out), PS_OK);
    EXPECT(ask(&other, "b", false), PS_YES);
    EXPECT(make(&other, ":(attr:-diff)*", 15, 0, &fault), PS_OK);
    EXPECT(ask(&other, "b", false), PS_NO);
    EXPECT(ps_search_assign(&other, BYTES("b"), BYTES("-diff"), &fault), PS_OK);
    EXPECT(add(&other, PS_DIRECTORY, "", "* diff\n", &left_out), PS_MIXED);
    EXPECT(ask(&other, "b", false), PS_YES);
    EXPECT(make(&other, ":(attr:-diff)*", 15, 0, &fault), PS_OK);
    EXPECT(add(&other, PS_DIRECTORY, "", "b binary\n", &left_out), PS_OK);
    EXPECT(ask(&other, "d/b", false), PS_YES);
    ps_search_free(&other);
}

/* A path of each byte, and a million specs. */
static void many(void)
{
    ps_search search = PS_SEARCH_INIT;
    ps_fault fault;
    for (unsigned byte = 1; byte < 256; byte++) {
        char path[] = { 'x', (char)byte, 'y', 0 };
        EXPECT(make(&search, path, 4, PS_LITERAL, &fault), PS_OK);
        EXPECT(ask(&search, path, false), PS_YES);
        EXPECT(ask(&search, "x", false), PS_NO);
    }
    size_t count = 1000000, length = 0;
    char *specs = malloc(count * 8);
    if (!specs)
        exit(1);
    for (size_t number = 0; number < count; number++)
        length += (size_t)sprintf(specs + length, "%06zu", number) + 1;
    EXPECT(make(&search, specs, length, 0, &fault), PS_OK);
    free(specs);
    EXPECT(ask(&search, "012345/a", false), PS_YES);
    EXPECT(ask(&search, "12345", false), PS_NO);
    ps_search_free(&search);
}

/* Each thread asks a search of its own, of the one that they share. */
static void *ask_often(void *own)
{
    size_t wrong = 0;
    for (int turn = 0; turn < 20000; turn++)
        wrong += ask(own, "src/d/a.c", false) != PS_YES || ask(own, "src/gen/a.c", false) != PS_NO;
    ps_search_free(own);
    return wrong ? own : NULL;
}

static void threads(void)
{
    ps_search search = PS_SEARCH_INIT, own[4] = { PS_SEARCH_INIT, PS_SEARCH_INIT, PS_SEARCH_INIT, PS_SEARCH_INIT };
    pthread_t ids[4];
    ps_fault fault;
    EXPECT(make(&search, "src/**/*.c\0:!src/gen", 21, PS_GLOB, &fault), PS_OK);
    for (int number = 0; number < 4; number++)
        EXPECT(ps_search_share(&search, &own[number]), PS_OK);
    ps_search_free(&search);
    for (int number = 0; number < 4; number++)
        EXPECT(pthread_create(&ids[number], NULL, ask_often, &own[number]), 0);
    for (int number = 0; number < 4; number++) {
        void *wrong;
        EXPECT(pthread_join(ids[number], &wrong), 0);
        EXPECT(wrong == NULL, true);
    }
}

int main(void)
{
    empty_ones();
    kinds();
    faults();
    prefixes();
    defaults();
    words();
    walks();
    messages();
    lists();
    attributes();
    attribute_files();
    many();
    threads();
    printf("edges: %lu answers\n", compared);
    return 0;
}
