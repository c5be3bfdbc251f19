/* The core of an editor in a terminal: makes edits of a file, and tells what has to be painted again: editor FILE EDITS
 *
 * A file whose name ends with `.jsx` or `.tsx` has JSX.
 *
 * Each line of EDITS is an edit: from which line and column to which, as the Language Server Protocol counts them, from
 * 0 and in units of UTF-16, and the text that comes in their place, in which \n, \r and \\ stand for a line end and a
 * backslash. Behind each edit the tokens of the document and their values are compared with those of its text, lexed
 * anew. */
#include "source.h"
#include <string.h>

/* The text that is shown, as the editor has it, and whether it may have JSX. */
typedef struct Buffer {
    uint8_t *bytes;
    size_t length;
    int has_jsx;
} Buffer;

/* A list of tokens that grows. */
typedef struct Painted {
    JsLiveToken *tokens;
    size_t count;
} Painted;

static void stop(const char *call, uint32_t answer) {
    fprintf(stderr, "%s answers %u\n", call, answer);
    exit(1);
}

/* Makes the edit in the editor's own text. */
static void replace(Buffer *text, uint32_t start, uint32_t end, const uint8_t *put, size_t put_length) {
    size_t length = text->length - (end - start) + put_length;
    uint8_t *bytes = room(length, 1);
    memcpy(bytes, text->bytes, start);
    memcpy(bytes + start, put, put_length);
    memcpy(bytes + start + put_length, text->bytes + end, text->length - end);
    free(text->bytes);
    text->bytes = bytes;
    text->length = length;
}

static JsPosition position_of(JsDocument *document, uint32_t offset) {
    JsPosition position = {0, 0};
    uint32_t answer = js_document_position(document, offset, JS_COLUMNS_UTF16, &position);
    if (answer != JS_LEX_OK) {
        stop("js_document_position", answer);
    }
    return position;
}

/* So many live tokens from an index on, or fewer where there are no more. */
static Painted tokens_from(JsDocument *document, size_t from, size_t most) {
    Painted painted = {room(most, sizeof(JsLiveToken)), 0};
    size_t all = 0;
    uint32_t answer = js_document_tokens(document, from, painted.tokens, most, &all);
    if (answer != JS_LEX_OK) {
        stop("js_document_tokens", answer);
    }
    painted.count = all < from ? 0 : all - from < most ? all - from : most;
    return painted;
}

static void print_token(JsDocument *document, const Buffer *text, const JsLiveToken *token) {
    char name[64];
    JsPosition at = position_of(document, token->span.start);
    int shown = (int)(token->span.end - token->span.start);
    const char *end = memchr(text->bytes + token->span.start, '\n', (size_t)shown);
    if (end != NULL) {
        shown = (int)(end - (const char *)text->bytes - token->span.start);
    }
    printf("    %u:%u %s %.*s%s\n", at.line, at.column, name_of(js_lex_kind_name, token->kind, name, sizeof name),
           shown, (const char *)text->bytes + token->span.start, end != NULL ? " .." : "");
}

/* Prints how many items of a list went and came, if any did. */
static void print_range(const char *name, const JsRange *range) {
    if (range->start != range->old_end || range->start != range->new_end) {
        printf("  %s from %zu on: %zu went, %zu came\n", name, range->start, range->old_end - range->start,
               range->new_end - range->start);
    }
}

/* Prints which lines have to be painted again, and the tokens that came. An edit changes tokens or what stands between
 * them: so its own lines are painted too. */
static void repaint(JsDocument *document, const Buffer *text, uint32_t start, size_t put_length) {
    JsChange change;
    uint32_t answer = js_document_changed(document, &change);
    if (answer != JS_LEX_OK) {
        stop("js_document_changed", answer);
    }
    Painted came = tokens_from(document, change.tokens.start, change.tokens.new_end - change.tokens.start);
    uint32_t first = start;
    uint32_t last = start + (uint32_t)put_length;
    if (came.count != 0) {
        const JsLiveToken *end = &came.tokens[came.count - 1];
        first = came.tokens[0].span.start < first ? came.tokens[0].span.start : first;
        last = end->span.end > last ? end->span.end : last;
    }
    printf("  lines %u to %u\n", position_of(document, first).line, position_of(document, last).line);
    print_range("comments", &change.comments);
    print_range("diagnostics", &change.diagnostics);
    print_range("tokens", &change.tokens);
    for (size_t i = 0; i < came.count; i++) {
        print_token(document, text, &came.tokens[i]);
    }
    free(came.tokens);
}

/* Whether a token of the document is the one of the text that was lexed anew. */
static int is_same(const JsLiveToken *live, const JsToken *token) {
    const uint8_t flags = JS_TOKEN_ON_NEW_LINE | JS_TOKEN_ESCAPED | JS_TOKEN_SEPARATOR;
    return live->span.start == token->span.start && live->span.end == token->span.end && live->kind == token->kind &&
           live->flags == (token->flags & flags);
}

/* Whether the value that stands at the start of a token of the document is that of the token that was lexed anew, with
 * the same units. */
static int has_units(JsDocument *document, const JsToken *token, const JsLists *lists) {
    size_t count = token->value_form == JS_VALUE_UNITS ? token->value.end - token->value.start : 0;
    JsLiveValue value;
    uint16_t *units = room(count, sizeof(uint16_t));
    int same = js_document_value_at(document, token->span.start, &value, units, count) == JS_LEX_OK &&
               value.form == token->value_form && value.unit_count == count &&
               memcmp(units, lists->units + (count != 0 ? token->value.start : 0), count * sizeof(uint16_t)) == 0;
    free(units);
    return same;
}

/* Whether a value of the document is that of the token that was lexed anew. A token without a byte stands at no offset. */
static int is_same_value(JsDocument *document, const JsLiveValue *value, const JsToken *token, const JsLists *lists) {
    if (value->form != token->value_form) {
        return 0;
    }
    if (value->form == JS_VALUE_SOURCE &&
        (value->span.start != token->value.start || value->span.end != token->value.end)) {
        return 0;
    }
    return token->span.start == token->span.end || has_units(document, token, lists);
}

/* Compares the values of the document with those of the text that was lexed anew. */
static void compare_values(JsDocument *document, const JsLists *lists, size_t tokens) {
    JsLiveValue *values = room(tokens, sizeof(JsLiveValue));
    size_t count = 0;
    uint32_t answer = js_document_values(document, 0, values, tokens, &count);
    if (answer != JS_LEX_OK) {
        stop("js_document_values", answer);
    }
    for (size_t i = 0; i < count && i < tokens; i++) {
        if (!is_same_value(document, &values[i], &lists->tokens[i], lists)) {
            printf("  token %zu has another value\n", i);
        }
    }
    free(values);
}

/* Compares the lines of the document with those of the text, which end behind LF, CR and CR LF, and gives their count. */
static size_t compare_lines(JsDocument *document, const Buffer *text) {
    uint32_t *starts = room(text->length + 1, sizeof(uint32_t));
    size_t count = 0;
    size_t line = 0;
    uint32_t answer = js_document_lines(document, 0, starts, text->length + 1, &count);
    if (answer != JS_LEX_OK) {
        stop("js_document_lines", answer);
    }
    for (size_t i = 0; i <= text->length; i++) {
        int begins = i == 0 || text->bytes[i - 1] == '\n' ||
                     (text->bytes[i - 1] == '\r' && (i == text->length || text->bytes[i] != '\n'));
        if (begins && (line >= count || starts[line++] != i)) {
            printf("  line %zu begins elsewhere\n", line);
        }
    }
    if (line != count) {
        printf("  %zu lines, and %zu in the text\n", count, line);
    }
    free(starts);
    return count;
}

/* Compares the document with its text, lexed anew, and prints what is not the same. */
static void compare(JsDocument *document, const Buffer *text) {
    Source source = {text->bytes, text->length};
    JsLists lists;
    JsCounts counts;
    uint32_t answer = lex_source_by(text->has_jsx ? js_lex_jsx : js_lex_auto, &source, JS_LEX_MODULE, &lists, &counts);
    if (answer != JS_LEX_OK) {
        stop(text->has_jsx ? "js_lex_jsx" : "js_lex_auto", answer);
    }
    Painted all = tokens_from(document, 0, counts.tokens + 1);
    if (all.count != counts.tokens) {
        printf("  %zu tokens, and %zu anew\n", all.count, counts.tokens);
    }
    for (size_t i = 0; i < all.count && i < counts.tokens; i++) {
        if (!is_same(&all.tokens[i], &lists.tokens[i])) {
            printf("  token %zu is another one\n", i);
        }
    }
    compare_values(document, &lists, counts.tokens);
    size_t comments = 0;
    size_t diagnostics = 0;
    JsComment *comment_list = room(counts.comments, sizeof(JsComment));
    JsDiagnostic *diagnostic_list = room(counts.diagnostics, sizeof(JsDiagnostic));
    if (js_document_comments(document, 0, comment_list, counts.comments, &comments) != JS_LEX_OK ||
        comments != counts.comments ||
        memcmp(comment_list, lists.comments, comments * sizeof(JsComment)) != 0) {
        printf("  other comments\n");
    }
    if (js_document_diagnostics(document, 0, diagnostic_list, counts.diagnostics, &diagnostics) != JS_LEX_OK ||
        diagnostics != counts.diagnostics ||
        memcmp(diagnostic_list, lists.diagnostics, diagnostics * sizeof(JsDiagnostic)) != 0) {
        printf("  other diagnostics\n");
    }
    printf("  %zu lines, %zu tokens, %zu comments, %zu diagnostics\n", compare_lines(document, text), all.count, comments,
           diagnostics);
    free(comment_list);
    free(diagnostic_list);
    free(all.tokens);
    free_lists(&lists);
}

/* Takes the escapes out of a text, in its place, and gives its length then. */
static size_t without_escapes(char *text) {
    size_t length = 0;
    for (const char *from = text; *from != 0; from++) {
        if (*from == '\\' && from[1] != 0) {
            from++;
            text[length++] = *from == 'n' ? '\n' : *from == 'r' ? '\r' : *from;
        } else {
            text[length++] = *from;
        }
    }
    return length;
}

/* The places of an edit as offsets. */
static uint32_t offset_of(JsDocument *document, const JsPosition *place, uint32_t *offset) {
    return js_document_offset(document, place->line, place->column, JS_COLUMNS_UTF16, offset);
}

static void edit(JsDocument *document, Buffer *text, char *line) {
    JsPosition from, to;
    int read = 0;
    if (sscanf(line, "%u %u %u %u%n", &from.line, &from.column, &to.line, &to.column, &read) != 4) {
        fprintf(stderr, "no edit: %s\n", line);
        exit(2);
    }
    printf("%s\n", line);
    char *put = line + read + (line[read] == ' ');
    size_t put_length = without_escapes(put);
    uint32_t start, end;
    uint32_t answer = offset_of(document, &from, &start);
    if (answer == JS_LEX_OK) {
        answer = offset_of(document, &to, &end);
    }
    if (answer == JS_LEX_OK) {
        answer = js_document_edit(document, start, end, (const uint8_t *)put, put_length);
    }
    if (answer != JS_LEX_OK) {
        printf("  answer %u\n", answer);
        return;
    }
    replace(text, start, end, (const uint8_t *)put, put_length);
    repaint(document, text, start, put_length);
    compare(document, text);
}

/* Whether a file may have JSX, by its name. */
static int may_have_jsx(const char *path) {
    const char *end = strrchr(path, '.');
    return end != NULL && (strcmp(end, ".jsx") == 0 || strcmp(end, ".tsx") == 0);
}

int main(int count, char **arguments) {
    if (count != 3) {
        fprintf(stderr, "usage: editor FILE EDITS\n");
        return 2;
    }
    Source source = read_source(arguments[1]);
    Buffer text = {source.bytes, source.length, may_have_jsx(arguments[1])};
    JsDocument document = JS_DOCUMENT_NONE;
    uint32_t answer = js_document_new(text.bytes, text.length, JS_LEX_MODULE, text.has_jsx ? JS_GOALS_JSX : JS_GOALS_AUTO,
                                      JS_LINES_LANGUAGE_SERVER, &document);
    if (answer != JS_LEX_OK) {
        stop("js_document_new", answer);
    }
    compare(&document, &text);
    FILE *edits = fopen(arguments[2], "r");
    char line[512];
    if (edits == NULL) {
        fprintf(stderr, "%s cannot be read\n", arguments[2]);
        return 3;
    }
    while (fgets(line, sizeof line, edits) != NULL) {
        line[strcspn(line, "\n")] = 0;
        edit(&document, &text, line);
    }
    fclose(edits);
    js_document_free(&document);
    free(text.bytes);
    return 0;
}
