/* The lexer for JavaScript, for programs in C and in what calls C: the static library js_lex_c.
 *
 * A call reads a source, and fills lists that the caller owns, each from its beginning as far as it has room. It keeps
 * nothing behind it: there is nothing to free, but for the documents of the js_document_.. calls, which a handle holds.
 * Where room was short, the caller calls again with more.
 *
 * Offsets are in bytes from the start of the source, which is UTF-8. A span goes from `start` up to `end`, without it.
 *
 * Who calls keeps to this, which nothing checks:
 * - No pointer is null, also where a length is 0.
 * - Behind each pointer stand as many items as its length says, aligned as C has them, and written before, as calloc
 *   leaves them. What they hold is of no matter.
 * - No two lists overlap, and none overlaps the source, the commands, `out` or `counts`. During a call nothing else
 *   reads or writes them. The call reads the source and the commands alone, and writes the lists and the counts alone.
 * - A call comes from no signal handler, and from no child that a process with threads forked.
 * Several calls may run at once in several threads, each with lists of its own; a source may be one for all.
 *
 * docs/EMBEDDING.md says how to link it, and what is proved.
 */
#ifndef JS_LEX_H
#define JS_LEX_H

#include <stddef.h>
#include <stdint.h>

#ifdef __cplusplus
extern "C" {
#endif

/* As what a source is read. */
enum {
    JS_LEX_MODULE = 0,
    JS_LEX_SCRIPT = 1,
    JS_LEX_UNAMBIGUOUS = 2 /* not settled: read as a script, with what a module may not have in `deferred` */
};

/* What a call answers. Of a call that fills a JsLists: on any but JS_LEX_OK the counts are 0 but for `place`. On any
 * but JS_LEX_OK and JS_LEX_NO_MEMORY the lists are as before; on JS_LEX_NO_MEMORY some tokens may stand at the
 * beginning of `tokens`, and units at that of `units`, each within its room, and all else is as before. */
enum {
    JS_LEX_OK = 0,
    JS_LEX_NO_MEMORY = 1,            /* or the pool would have 2^32 units or more */
    JS_LEX_NOT_UTF8 = 6,             /* the longest beginning that is UTF-8 has `place` bytes */
    JS_LEX_NO_MARK = 7,              /* the command at the index `place` closes a mark where none is open */
    JS_LEX_OVERLONG = 11,            /* the source has 2^32 bytes or more */
    JS_LEX_UNKNOWN_COMMAND = 12,     /* the number at the index `place` is that of no command */
    JS_LEX_UNKNOWN_SOURCE_TYPE = 13,
    /* of the js_document_.. calls alone, which say themselves what each answer leaves: */
    JS_LEX_BAD_EDIT = 14,       /* it starts behind its end, or one of both is behind the text or within a character */
    JS_LEX_NO_DOCUMENT = 15,    /* the handle holds none */
    JS_LEX_UNKNOWN_NUMBER = 16, /* the number is that of no goals, of no line ends, or of no unit of columns */
    JS_LEX_NOTHING_THERE = 17   /* no live token has the byte, or there is no line of this number */
};

/* What a session does next, one byte each. */
enum {
    JS_LEX_NEXT = 0,          /* reads the next token, which is live from then on */
    JS_LEX_JSX_CHILD = 1,     /* reads what stands between two tags of JSX */
    JS_LEX_JSX_ATTR = 2,      /* reads the value of an attribute of JSX */
    JS_LEX_REGEX = 3,         /* reads a regular expression from the `/` or `/=` on that is the last live token */
    JS_LEX_TEMPLATE_TAIL = 4, /* reads on a template behind the `}` that is the last live token */
    JS_LEX_JSX_NAME = 5,      /* reads on a name of JSX where a `-` follows the last live token */
    JS_LEX_R_ANGLE = 6,       /* reads the longest punctuator from the `>` on that is the last live token */
    JS_LEX_TS_L_ANGLE = 7,    /* reads the `<` alone with which the last live token begins */
    JS_LEX_TS_R_ANGLE = 8,    /* reads the `>` alone with which the last live token begins */
    JS_LEX_PEEK = 9,          /* reads the next token, and goes back before it */
    JS_LEX_MARK = 10,         /* marks what is live */
    JS_LEX_REWIND = 11,       /* goes back to the last mark that is open, and closes it */
    JS_LEX_COMMIT = 12        /* closes the last mark that is open */
};

/* In the place of an offset or a character: there is none. */
#define JS_LEX_NONE 0xFFFFFFFFu

/* A stretch, of the source in bytes or of the pool in units. */
typedef struct JsSpan {
    uint32_t start;
    uint32_t end;
} JsSpan;

/* The flags of a token. The first is that of the reading that gave it: a token that was read again, as a regular
 * expression is from its `/` on, never has it, wherever it stands. */
enum {
    JS_TOKEN_ON_NEW_LINE = 1, /* a line has ended in the gap before it, or none was read before it */
    JS_TOKEN_ESCAPED = 2,     /* it has an escape in it, or a line end that its value changes */
    JS_TOKEN_SEPARATOR = 4,   /* it is a number with a `_` right behind a digit */
    JS_TOKEN_BAD_FLAGS = 8    /* a flag of the regular expression is unknown or stands twice */
};

/* The flags of a regular expression: bit 0 to 7 for `g`, `i`, `m`, `s`, `u`, `y`, `d` and `v`. */
#define JS_REGEX_FLAGS "gimsuydv"

/* How the value of a token is told. */
enum {
    JS_VALUE_NONE = 0,   /* a token of its kind has no value */
    JS_VALUE_SOURCE = 1, /* it is the stretch `value` of the source, as it stands there */
    JS_VALUE_UNITS = 2,  /* it is the stretch `value` of the pool: UTF-16 units, in which a surrogate may be alone */
    JS_VALUE_BAD = 3     /* it is a part of a template with an escape that stands for nothing */
};

/* A token. */
typedef struct JsToken {
    JsSpan span;          /* where it stands */
    JsSpan value;         /* where its value is, by `value_form`; 0 and 0 where it has none */
    uint32_t pattern_end; /* of a regular expression the offset of the `/` behind its pattern, or the end of the source
                             where none ends it; else 0 */
    uint8_t kind;         /* js_lex_kind_name names it */
    uint8_t flags;        /* a sum of JS_TOKEN_.. */
    uint8_t regex_flags;  /* of a regular expression its flags, else 0 */
    uint8_t value_form;   /* JS_VALUE_.. */
} JsToken;

/* How a comment is written. */
enum {
    JS_COMMENT_LINE = 0,              /* `//` */
    JS_COMMENT_SINGLE_LINE_BLOCK = 1, /* from slash and star to star and slash, without a line end inside */
    JS_COMMENT_MULTI_LINE_BLOCK = 2,  /* the same with one */
    JS_COMMENT_HTML_OPEN = 3,         /* `<!--` */
    JS_COMMENT_HTML_CLOSE = 4         /* `-->` */
};

/* To which token a comment belongs. */
enum { JS_COMMENT_LEADING = 0, JS_COMMENT_TRAILING = 1 };

/* On which sides of a comment lines end. */
enum { JS_NEWLINE_BEFORE = 1, JS_NEWLINE_AFTER = 2 };

/* A comment. */
typedef struct JsComment {
    JsSpan span;          /* the whole comment with its marks, without the line end behind it */
    uint32_t attached_to; /* the start of the token that it leads, or the end of the token that it trails */
    uint8_t kind;         /* JS_COMMENT_LINE .. JS_COMMENT_HTML_CLOSE */
    uint8_t position;     /* JS_COMMENT_LEADING or JS_COMMENT_TRAILING */
    uint8_t newlines;     /* a sum of JS_NEWLINE_.. */
    uint8_t content;      /* its class; js_lex_content_name names it */
} JsComment;

/* A diagnostic. */
typedef struct JsDiagnostic {
    JsSpan span;        /* what it is about; both ends are JS_LEX_NONE where it is about the whole file */
    uint32_t number;    /* js_lex_diagnostic_name names it */
    uint32_t character; /* the character that it names, or JS_LEX_NONE */
} JsDiagnostic;

/* The lists of the caller, each with its room: how many items it may have. */
typedef struct JsLists {
    JsToken *tokens; /* the live tokens, in order */
    size_t token_room;
    uint16_t *units; /* the pool: the UTF-16 units of decoded values, one value behind the other */
    size_t unit_room;
    JsDiagnostic *diagnostics; /* what is at fault */
    size_t diagnostic_room;
    JsDiagnostic *deferred; /* what is at fault if the source is a module */
    size_t deferred_room;
    JsComment *comments;
    size_t comment_room;
    JsSpan *irregular; /* white space other than TAB and SP, and U+2028 and U+2029, outside comments */
    size_t irregular_room;
    JsSpan *warnings; /* each `>` in the text of a child of JSX */
    size_t warning_room;
} JsLists;

/* How many items there are of each list, however much room there was. */
typedef struct JsCounts {
    size_t tokens;
    size_t units;
    size_t diagnostics;
    size_t deferred;
    size_t comments;
    size_t irregular;
    size_t warnings;
    size_t place; /* of some answers an offset or an index, else 0 */
} JsCounts;

/* Lexes a source of `source_length` bytes by goals that are chosen: where a `/` begins a regular expression, and where
 * a `}` ends a substitution of a template, is told by the tokens before it. This is a rule of thumb, not a parser's.
 *
 * It answers JS_LEX_OK, JS_LEX_NO_MEMORY, JS_LEX_NOT_UTF8, JS_LEX_OVERLONG or JS_LEX_UNKNOWN_SOURCE_TYPE. The last
 * token is the end of the source. Room for `source_length` + 1 tokens always suffices. */
uint32_t js_lex_auto(const uint8_t *source, size_t source_length, uint32_t source_type, JsLists *out,
                     JsCounts *counts);

/* Lexes a source that may have JSX, by a rule that knows its tags and texts, and answers what js_lex_auto does. It may
 * find more tokens than the source has bytes, since an end that a '}' makes in the text of an element has none. */
uint32_t js_lex_jsx(const uint8_t *source, size_t source_length, uint32_t source_type, JsLists *out, JsCounts *counts);

/* How many items js_lex_auto finds in a source: it answers what that does, takes as long, and writes the counts alone.
 * So lists can be made with just the room that they need. */
uint32_t js_lex_count(const uint8_t *source, size_t source_length, uint32_t source_type, JsCounts *counts);

/* Lexes a source by commands: the first token is read before any. It answers what js_lex_auto does, and besides
 * JS_LEX_NO_MARK and JS_LEX_UNKNOWN_COMMAND. */
uint32_t js_lex_steps(const uint8_t *source, size_t source_length, uint32_t source_type, const uint8_t *commands,
                      size_t command_count, JsLists *out, JsCounts *counts);

/* Documents: texts that are edited, with their tokens and lines, which each edit keeps up to date.
 *
 * A JsDocument holds a document, or none. Who calls writes JS_DOCUMENT_NONE into it before any call, and then hands its
 * address to these calls alone: they read it and write it, and it may be moved or copied by nothing else. A document is
 * freed by js_document_free. It stays on the thread that made it, and is in one call at a time; a call about one
 * document leaves all others. Nothing that a call is given may overlap the handle.
 *
 * Behind each answer but JS_LEX_OK the document, and all that the call would have written, are as before; but where
 * lines were asked for (js_document_lines, js_document_position, js_document_offset), those are kept from then on. Each
 * answer but JS_LEX_NO_MEMORY comes for its cause alone, in the order in which a call lists them. */
typedef struct JsDocument {
    void *held; /* of no matter to who calls */
} JsDocument;

#define JS_DOCUMENT_NONE { NULL }

/* By which rule a document chooses the goals of its tokens. */
enum {
    JS_GOALS_AUTO = 0, /* as js_lex_auto chooses them */
    JS_GOALS_JSX = 1   /* as js_lex_jsx does, for texts with JSX */
};

/* What ends a line. A CR LF is one line end in each. */
enum {
    JS_LINES_ECMASCRIPT = 0,     /* LF, CR, U+2028 and U+2029, as ECMA-262 12.3 has them */
    JS_LINES_LINE_FEEDS = 1,     /* LF alone */
    JS_LINES_LANGUAGE_SERVER = 2 /* LF and CR, as the Language Server Protocol has them */
};

/* In what columns are counted. */
enum {
    JS_COLUMNS_BYTES = 0,
    JS_COLUMNS_CHARACTERS = 1,
    JS_COLUMNS_UTF16 = 2 /* a character from U+10000 on has two units */
};

/* A live token of a document. */
typedef struct JsLiveToken {
    JsSpan span;   /* where it stands */
    uint8_t kind;  /* js_lex_kind_name names it */
    uint8_t flags; /* a sum of JS_TOKEN_ON_NEW_LINE, JS_TOKEN_ESCAPED and JS_TOKEN_SEPARATOR */
} JsLiveToken;

/* The value of a live token of a document. Names, strings and parts of templates have one. */
typedef struct JsLiveValue {
    JsSpan span;       /* the stretch of the text that it is, with JS_VALUE_SOURCE; else 0 and 0 */
    size_t unit_count; /* how many UTF-16 units it has, with JS_VALUE_UNITS; else 0 */
    uint8_t form;      /* JS_VALUE_.. */
} JsLiveValue;

/* What the last edit changed of a list: its items from `start` on went, up to `old_end` of the old list, and those from
 * `start` on came, up to `new_end` of the new one. All before are the same, and stand before the edit; those behind are
 * the old ones, moved. Where no edit was made yet, all items came. */
typedef struct JsRange {
    size_t start;
    size_t old_end;
    size_t new_end;
} JsRange;

typedef struct JsChange {
    JsRange tokens; /* of the live tokens */
    JsRange comments;
    JsRange diagnostics;
    size_t kept_rows;    /* how many readings of a token were kept before the edit, */
    size_t read_rows;    /* and how many were made behind them; the others were taken over */
    uint32_t moved_from; /* what stood at this offset of the old text or behind it, */
    uint32_t moved_to;   /* stands as far behind this one of the new text */
} JsChange;

/* A place by its line and its column, both from 0. */
typedef struct JsPosition {
    uint32_t line;
    uint32_t column;
} JsPosition;

/* Makes the document of a source, with goals that are chosen by the rule of the number `goals`, and puts it into the
 * handle. A document that was there is freed. The source is copied.
 *
 * It answers JS_LEX_UNKNOWN_SOURCE_TYPE, JS_LEX_UNKNOWN_NUMBER (of goals, or of line ends), JS_LEX_OVERLONG,
 * JS_LEX_NOT_UTF8, JS_LEX_NO_MEMORY or JS_LEX_OK. */
uint32_t js_document_new(const uint8_t *source, size_t source_length, uint32_t source_type, uint32_t goals,
                         uint32_t line_ends, JsDocument *document);

/* Frees the document, if there is one. The handle holds none then, and js_document_new may be called again. */
void js_document_free(JsDocument *document);

/* Makes an edit: the bytes of the text from `start` up to `end`, without it, become those of `text`. The tokens are
 * those of the new text from then on, as if it were lexed anew by the same rule.
 *
 * It answers JS_LEX_NO_DOCUMENT, JS_LEX_OVERLONG or JS_LEX_NOT_UTF8 (of `text`), JS_LEX_BAD_EDIT, JS_LEX_OVERLONG (of
 * the text that it would make), JS_LEX_NO_MEMORY or JS_LEX_OK. */
uint32_t js_document_edit(JsDocument *document, uint32_t start, uint32_t end, const uint8_t *text, size_t text_length);

/* Tells what the last edit changed. It answers JS_LEX_NO_DOCUMENT or JS_LEX_OK. */
uint32_t js_document_changed(JsDocument *document, JsChange *change);

/* Fills a list with the live tokens from the index `from` on, as far as there is room; `count` says how many the whole
 * document has. The last of them is the end of the text. It takes time for all tokens up to the last one that it
 * writes. It answers JS_LEX_NO_DOCUMENT or JS_LEX_OK. */
uint32_t js_document_tokens(JsDocument *document, size_t from, JsLiveToken *tokens, size_t token_room, size_t *count);

/* Tells the live token that the byte at an offset belongs to, found by halves. It answers JS_LEX_NO_DOCUMENT,
 * JS_LEX_NOTHING_THERE (white space, a comment, or behind the text) or JS_LEX_OK. */
uint32_t js_document_token_at(JsDocument *document, uint32_t offset, JsLiveToken *token);

/* Fills a list with the values of the live tokens from the index `from` on, as js_document_tokens does with the tokens:
 * the value at an index is that of the token there. The units of a decoded one are told by js_document_value_at. It
 * answers JS_LEX_NO_DOCUMENT or JS_LEX_OK. */
uint32_t js_document_values(JsDocument *document, size_t from, JsLiveValue *values, size_t value_room, size_t *count);

/* Tells the value of the live token that the byte at an offset belongs to, found by halves, and fills a list with its
 * UTF-16 units, in which a surrogate may be alone, as far as there is room; behind them the list is as before. It answers
 * what js_document_token_at does. */
uint32_t js_document_value_at(JsDocument *document, uint32_t offset, JsLiveValue *value, uint16_t *units,
                              size_t unit_room);

/* Each fills a list with the items from the index `from` on, as far as there is room; `count` says how many the document
 * has. It answers JS_LEX_NO_DOCUMENT, JS_LEX_NO_MEMORY (where they are more than a size_t counts) or JS_LEX_OK. */
uint32_t js_document_comments(JsDocument *document, size_t from, JsComment *comments, size_t comment_room,
                              size_t *count);
uint32_t js_document_diagnostics(JsDocument *document, size_t from, JsDiagnostic *diagnostics, size_t diagnostic_room,
                                 size_t *count);

/* Fills a list with the offsets at which lines begin, from the line `from` on, as far as there is room; `count` says how
 * many lines the text has, which is one more than line ends. The first call of this one or the next two looks for the
 * lines of the whole text; each edit then keeps them up to date. It answers JS_LEX_NO_DOCUMENT, JS_LEX_NO_MEMORY or
 * JS_LEX_OK. */
uint32_t js_document_lines(JsDocument *document, uint32_t from, uint32_t *starts, size_t start_room, size_t *count);

/* Tells the line and the column of an offset, by the line ends of js_document_new, in a unit of columns. Within a
 * character the offset is that character's start, behind the text its end.
 *
 * It answers JS_LEX_NO_DOCUMENT, JS_LEX_UNKNOWN_NUMBER (of the unit), JS_LEX_NO_MEMORY or JS_LEX_OK. */
uint32_t js_document_position(JsDocument *document, uint32_t offset, uint32_t unit, JsPosition *position);

/* Tells the offset of a place: behind the longest front of its line, without its line end, that is no longer than the
 * column. It answers JS_LEX_NO_DOCUMENT, JS_LEX_UNKNOWN_NUMBER (of the unit), JS_LEX_NOTHING_THERE (there is no such
 * line), JS_LEX_NO_MEMORY or JS_LEX_OK. */
uint32_t js_document_offset(JsDocument *document, uint32_t line, uint32_t column, uint32_t unit, uint32_t *offset);

/* The name of a kind of tokens, of a diagnostic, and of a class of comments, by its number: each fills the buffer as
 * far as there is room, with no 0 behind it, and gives the length of the name in bytes, all of them ASCII. It gives 0
 * for a number that has no name, and leaves the buffer. The numbers go from 0 on without a gap. */
size_t js_lex_kind_name(uint32_t number, uint8_t *buffer, size_t room);
size_t js_lex_diagnostic_name(uint32_t number, uint8_t *buffer, size_t room);
size_t js_lex_content_name(uint32_t number, uint8_t *buffer, size_t room);

#ifdef __cplusplus
}
#endif

#endif
