/* Prints what a call of nvcc runs: `plan CWD TMP WORD..`. TMP is a directory for temporary files. */
#include <stdio.h>
#include <zigrunk.h>

extern char **environ;

int main(int count, char **words) {
    if (count < 3) {
        return fprintf(stderr, "usage: plan CWD TMP WORD..\n"), 2;
    }
    const char *const *line = (const char *const *)words + 3, *const *variables = (const char *const *)environ;
    zigrunk_nvcc_call given = {{"nvcc", ZIGRUNK_ALL}, {line, NULL, ZIGRUNK_ALL}, {variables, NULL, ZIGRUNK_ALL}, {words[1], ZIGRUNK_ALL}, {words[2], ZIGRUNK_ALL}};
    zigrunk_call *call = NULL;
    zigrunk_plan *plan = NULL;
    zigrunk_error *error = NULL;
    if (zigrunk_call_of(&given, &call, &error) == ZIGRUNK_OK && zigrunk_call_plan(call, &plan, &error) == ZIGRUNK_OK) {
        const zigrunk_commands *commands = zigrunk_plan_commands(plan);
        for (size_t i = 0; i < commands->count; i++) {
            printf("%s\n", commands->items[i].words.items[0]);
        }
    } else {
        fprintf(stderr, "%s\n", error->message.bytes);
    }
    zigrunk_free(error), zigrunk_free(plan), zigrunk_free(call);
    return plan == NULL;
}
