/* Collects licences: prints the comments of class Legal and JsdocLegal of each file that is named. */
#include "source.h"
#include <string.h>

static int is_licence(const JsComment *comment) {
    char name[64];
    name_of(js_lex_content_name, comment->content, name, sizeof name);
    return strcmp(name, "Legal") == 0 || strcmp(name, "JsdocLegal") == 0;
}

int main(int count, char **arguments) {
    int status = 0;
    for (int i = 1; i < count; i++) {
        JsLists lists;
        JsCounts counts;
        Source source = read_source(arguments[i]);
        uint32_t answer = lex_source(&source, JS_LEX_UNAMBIGUOUS, &lists, &counts);
        if (answer != JS_LEX_OK) {
            fprintf(stderr, "%s: answer %u at %zu\n", arguments[i], answer, counts.place);
            status = 1;
            counts.comments = 0;
        }
        for (size_t k = 0; k < counts.comments; k++) {
            JsSpan span = lists.comments[k].span;
            if (is_licence(&lists.comments[k])) {
                printf("%s:%u: ", arguments[i], span.start);
                printf("%.*s\n", (int)(span.end - span.start), source.bytes + span.start);
            }
        }
        free_lists(&lists);
        free(source.bytes);
    }
    return status;
}
