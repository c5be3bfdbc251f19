/* Prints the tokens, comments and diagnostics of a file: tokens FILE [module|script|unambiguous] */
#include "source.h"
#include <string.h>

static void print_token(const Source *source, const JsLists *lists, const JsToken *token) {
    char name[64];
    printf("%s %u..%u", name_of(js_lex_kind_name, token->kind, name, sizeof name), token->span.start, token->span.end);
    if (token->flags & JS_TOKEN_ON_NEW_LINE) {
        printf(" new-line");
    }
    if (token->flags & JS_TOKEN_ESCAPED) {
        printf(" escaped");
    }
    if (token->flags & JS_TOKEN_SEPARATOR) {
        printf(" separator");
    }
    if (token->pattern_end != 0) {
        printf(" pattern-end %u flags ", token->pattern_end);
        for (int bit = 0; bit < 8; bit++) {
            if (token->regex_flags >> bit & 1) {
                putchar(JS_REGEX_FLAGS[bit]);
            }
        }
    }
    if (token->value_form == JS_VALUE_SOURCE) {
        printf(" =%.*s", (int)(token->value.end - token->value.start), source->bytes + token->value.start);
    } else if (token->value_form == JS_VALUE_UNITS) {
        printf(" units");
        for (uint32_t i = token->value.start; i < token->value.end; i++) {
            printf(" %04X", lists->units[i]);
        }
    } else if (token->value_form == JS_VALUE_BAD) {
        printf(" bad");
    }
    putchar('\n');
}

static void print_comment(const JsComment *comment) {
    char name[64];
    printf("comment %u..%u kind %u %s %u newlines %u %s\n", comment->span.start, comment->span.end, comment->kind,
           comment->position == JS_COMMENT_LEADING ? "leads" : "trails", comment->attached_to, comment->newlines,
           name_of(js_lex_content_name, comment->content, name, sizeof name));
}

static void print_diagnostic(const char *word, const JsDiagnostic *diagnostic) {
    char name[64];
    printf("%s %s", word, name_of(js_lex_diagnostic_name, diagnostic->number, name, sizeof name));
    if (diagnostic->span.start != JS_LEX_NONE) {
        printf(" %u..%u", diagnostic->span.start, diagnostic->span.end);
    }
    if (diagnostic->character != JS_LEX_NONE) {
        printf(" U+%04X", diagnostic->character);
    }
    putchar('\n');
}

int main(int count, char **arguments) {
    uint32_t type = JS_LEX_MODULE;
    JsLists lists;
    JsCounts counts;
    if (count < 2) {
        fprintf(stderr, "tokens FILE [module|script|unambiguous]\n");
        return 2;
    }
    if (count > 2) {
        type = strcmp(arguments[2], "module") == 0 ? JS_LEX_MODULE
               : strcmp(arguments[2], "script") == 0 ? JS_LEX_SCRIPT
                                                     : JS_LEX_UNAMBIGUOUS;
    }
    Source source = read_source(arguments[1]);
    uint32_t answer = lex_source(&source, type, &lists, &counts);
    if (answer != JS_LEX_OK) {
        fprintf(stderr, "answer %u at %zu\n", answer, counts.place);
        return (int)answer;
    }
    for (size_t i = 0; i < counts.tokens; i++) {
        print_token(&source, &lists, &lists.tokens[i]);
    }
    for (size_t i = 0; i < counts.comments; i++) {
        print_comment(&lists.comments[i]);
    }
    for (size_t i = 0; i < counts.diagnostics; i++) {
        print_diagnostic("diagnostic", &lists.diagnostics[i]);
    }
    for (size_t i = 0; i < counts.deferred; i++) {
        print_diagnostic("deferred", &lists.deferred[i]);
    }
    for (size_t i = 0; i < counts.irregular; i++) {
        printf("irregular %u..%u\n", lists.irregular[i].start, lists.irregular[i].end);
    }
    free_lists(&lists);
    free(source.bytes);
    return 0;
}
