/* A file in memory, and lists with room for what is in it. */
#ifndef SOURCE_H
#define SOURCE_H

#include "js_lex.h"
#include <stdio.h>
#include <stdlib.h>

typedef struct Source {
    uint8_t *bytes;
    size_t length;
} Source;

static inline void *room(size_t items, size_t size) {
    void *list = calloc(items != 0 ? items : 1, size);
    if (list == NULL) {
        fprintf(stderr, "no memory\n");
        exit(1);
    }
    return list;
}

static inline Source read_source(const char *path) {
    Source source = {NULL, 0};
    FILE *file = fopen(path, "rb");
    long length = -1;
    if (file != NULL && fseek(file, 0, SEEK_END) == 0) {
        length = ftell(file);
    }
    if (length < 0 || fseek(file, 0, SEEK_SET) != 0) {
        fprintf(stderr, "%s cannot be read\n", path);
        exit(3);
    }
    source.bytes = room((size_t)length, 1);
    source.length = fread(source.bytes, 1, (size_t)length, file);
    fclose(file);
    return source;
}

static inline JsLists make_lists(const JsCounts *counts) {
    JsLists lists = {
        room(counts->tokens, sizeof(JsToken)),           counts->tokens,
        room(counts->units, sizeof(uint16_t)),           counts->units,
        room(counts->diagnostics, sizeof(JsDiagnostic)), counts->diagnostics,
        room(counts->deferred, sizeof(JsDiagnostic)),    counts->deferred,
        room(counts->comments, sizeof(JsComment)),       counts->comments,
        room(counts->irregular, sizeof(JsSpan)),         counts->irregular,
        room(counts->warnings, sizeof(JsSpan)),          counts->warnings,
    };
    return lists;
}

static inline void free_lists(JsLists *lists) {
    free(lists->tokens);
    free(lists->units);
    free(lists->diagnostics);
    free(lists->deferred);
    free(lists->comments);
    free(lists->irregular);
    free(lists->warnings);
}

/* Whether each list had room for all of its items. */
static inline int had_room(const JsLists *lists, const JsCounts *counts) {
    return counts->tokens <= lists->token_room && counts->units <= lists->unit_room &&
           counts->diagnostics <= lists->diagnostic_room && counts->deferred <= lists->deferred_room &&
           counts->comments <= lists->comment_room && counts->irregular <= lists->irregular_room &&
           counts->warnings <= lists->warning_room;
}

/* js_lex_auto, or js_lex_jsx. */
typedef uint32_t LexChosen(const uint8_t *source, size_t source_length, uint32_t source_type, JsLists *out,
                           JsCounts *counts);

/* Lexes a source by a call into lists with room for everything: a first guess, and, where it was short, once more. */
static inline uint32_t lex_source_by(LexChosen *lex, const Source *source, uint32_t source_type, JsLists *lists,
                                     JsCounts *counts) {
    JsCounts guess = {source->length / 4 + 16, 64, 16, 16, source->length / 64 + 16, 16, 16, 0};
    *lists = make_lists(&guess);
    uint32_t answer = lex(source->bytes, source->length, source_type, lists, counts);
    if (answer == JS_LEX_OK && !had_room(lists, counts)) {
        free_lists(lists);
        *lists = make_lists(counts);
        answer = lex(source->bytes, source->length, source_type, lists, counts);
    }
    return answer;
}

/* The same by js_lex_auto. */
static inline uint32_t lex_source(const Source *source, uint32_t source_type, JsLists *lists, JsCounts *counts) {
    return lex_source_by(js_lex_auto, source, source_type, lists, counts);
}

/* A name of a number, with a 0 behind it. */
typedef size_t NameOf(uint32_t number, uint8_t *buffer, size_t room);

static inline const char *name_of(NameOf *call, uint32_t number, char *buffer, size_t size) {
    size_t length = call(number, (uint8_t *)buffer, size - 1);
    buffer[length < size ? length : size - 1] = 0;
    return buffer;
}

#endif
