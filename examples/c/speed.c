/* Measures: lexes a file so many times in one process, and prints the fastest: speed FILE [TIMES] */
#include "source.h"
#include <time.h>

int main(int count, char **arguments) {
    int times = count > 2 ? atoi(arguments[2]) : 5;
    JsLists lists;
    JsCounts counts;
    if (count < 2) {
        fprintf(stderr, "speed FILE [TIMES]\n");
        return 2;
    }
    Source source = read_source(arguments[1]);
    uint32_t answer = lex_source(&source, JS_LEX_MODULE, &lists, &counts);
    double best = 0;
    for (int i = 0; i < times && answer == JS_LEX_OK; i++) {
        clock_t start = clock();
        answer = js_lex_auto(source.bytes, source.length, JS_LEX_MODULE, &lists, &counts);
        double taken = (double)(clock() - start) / CLOCKS_PER_SEC;
        best = i == 0 || taken < best ? taken : best;
    }
    printf("answer %u: %zu bytes, %zu tokens, %zu comments", answer, source.length, counts.tokens, counts.comments);
    printf(", %.1f ms, %.1f MB/s\n", best * 1e3, (double)source.length / 1e6 / best);
    free_lists(&lists);
    free(source.bytes);
    return (int)answer;
}
