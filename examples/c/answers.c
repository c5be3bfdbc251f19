/* Prints what calls answer: a regular expression, room that is short, bytes that are no text, an empty source,
 * counts alone, and commands. */
#include "source.h"
#include <string.h>

#define ROOM 8

static JsToken tokens[ROOM];

/* Lexes with room for so many tokens and for nothing else, and prints what was filled. */
static void print_answer(const char *title, uint32_t answer, const JsCounts *counts, size_t token_room) {
    printf("%s: answer %u, tokens %zu, place %zu\n", title, answer, counts->tokens, counts->place);
    for (size_t i = 0; i < ROOM; i++) {
        char name[64];
        const JsToken *token = &tokens[i];
        if (token->kind == 255) {
            continue;
        }
        name_of(js_lex_kind_name, token->kind, name, sizeof name);
        printf("  %s %u..%u pattern-end %u flags %u\n", name, token->span.start, token->span.end, token->pattern_end,
               token->regex_flags);
    }
    if (token_room < counts->tokens) {
        printf("  room for %zu\n", token_room);
    }
}

/* No kind has this number: what stays untouched is told by it. */
static JsLists lists_with(size_t token_room) {
    static uint16_t units[1];
    static JsDiagnostic diagnostics[1], deferred[1];
    static JsComment comments[1];
    static JsSpan irregular[1], warnings[1];
    JsLists lists = {tokens, token_room, units, 0, diagnostics, 0, deferred, 0, comments, 0, irregular, 0, warnings, 0};
    memset(tokens, 255, sizeof tokens);
    return lists;
}

static void lex(const char *title, const char *text, size_t length, uint32_t type, size_t token_room) {
    JsCounts counts;
    JsLists lists = lists_with(token_room);
    uint32_t answer = js_lex_auto((const uint8_t *)text, length, type, &lists, &counts);
    print_answer(title, answer, &counts, token_room);
}

static void count_items(const char *title, const char *text, uint32_t type) {
    JsCounts counts;
    uint32_t answer = js_lex_count((const uint8_t *)text, strlen(text), type, &counts);
    printf("%s: answer %u, tokens %zu, units %zu, comments %zu, place %zu\n", title, answer, counts.tokens, counts.units,
           counts.comments, counts.place);
}

static void steps(const char *title, const char *text, const uint8_t *commands, size_t count) {
    JsCounts counts;
    JsLists lists = lists_with(ROOM);
    uint32_t answer =
        js_lex_steps((const uint8_t *)text, strlen(text), JS_LEX_MODULE, commands, count, &lists, &counts);
    print_answer(title, answer, &counts, ROOM);
}

int main(void) {
    static const uint8_t unknown[] = {JS_LEX_NEXT, 99};
    static const uint8_t no_mark[] = {JS_LEX_NEXT, JS_LEX_REWIND};
    static const uint8_t back[] = {JS_LEX_MARK, JS_LEX_NEXT, JS_LEX_NEXT, JS_LEX_REWIND, JS_LEX_NEXT, JS_LEX_PEEK};
    static const uint8_t regex[] = {JS_LEX_NEXT, JS_LEX_NEXT, JS_LEX_MARK, JS_LEX_REGEX, JS_LEX_REWIND};
    char name[64];
    lex("x=/b/g", "x=/b/g", 6, JS_LEX_MODULE, ROOM);
    lex("three tokens, room for two", "a b", 3, JS_LEX_MODULE, 2);
    lex("FF", "\xFF", 1, JS_LEX_MODULE, ROOM);
    lex("empty", "", 0, JS_LEX_SCRIPT, ROOM);
    lex("source type 3", "a", 1, 3, ROOM);
    count_items("counts of '\\x61' and a comment", "'\\x61' /* */", JS_LEX_MODULE);
    count_items("counts of source type 3", "a", 3);
    steps("next, 99", "a b", unknown, 2);
    steps("next, rewind", "a b", no_mark, 2);
    steps("mark, next, next, rewind, next, peek", "a b c", back, 6);
    steps("next, next, mark, regex, rewind", "x=/b/g", regex, 5);
    printf("no kind: %zu bytes\n", js_lex_kind_name(255, (uint8_t *)name, sizeof name));
    printf("a name of %zu bytes in a buffer of 2: ", js_lex_content_name(1, (uint8_t *)name, 2));
    printf("%.2s\n", name);
    printf("%s\n", name_of(js_lex_diagnostic_name, 12, name, sizeof name));
    return 0;
}
