/* Eight threads that share a call and a plan: `threads ROOM COUNT`. Each asks COUNT times for all that they say, and frees what it got. */
#include <pthread.h>
#include <stdio.h>
#include <stdlib.h>
#include <string.h>
#include <zigrunk.h>

enum { THREADS = 8 };

static zigrunk_call *call;
static zigrunk_plan *plan;
static long turns;
static char *shell;

static void *run(void *unused) {
    (void)unused;
    for (long turn = 0; turn < turns; turn++) {
        zigrunk_answer *text = NULL;
        const zigrunk_commands *all = zigrunk_plan_commands(plan);
        if (zigrunk_plan_text(plan, (zigrunk_text){"shell", ZIGRUNK_ALL}, &text, NULL) != ZIGRUNK_OK || strcmp(text->texts.items[0], shell) != 0
            || all->count != 7 || strcmp(zigrunk_call_outline(call)->flag.bytes, "-c") != 0) {
            puts("another answer"), exit(1);
        }
        zigrunk_free(text);
        for (size_t i = 0; i < all->count; i++) {
            zigrunk_answer *key = NULL;
            zigrunk_error *error = NULL;
            if (zigrunk_plan_key(plan, i, &key, &error) == ZIGRUNK_OK ? !key->texts.count : !error->message.length) {
                exit(1);
            }
            zigrunk_free(key), zigrunk_free(error);
        }
    }
    return NULL;
}

int main(int count, char **arguments) {
    char nvcc[4096], cwd[4096], tmp[4096];
    if (count != 3) {
        return 2;
    }
    snprintf(nvcc, sizeof nvcc, "%s/bin/nvcc", arguments[1]), snprintf(cwd, sizeof cwd, "%s/w", arguments[1]), snprintf(tmp, sizeof tmp, "%s/t", arguments[1]);
    turns = atol(arguments[2]);
    const char *words[] = {"-c", "kernel.cu", "-o", "kernel.o", NULL};
    zigrunk_nvcc_call given = {{nvcc, ZIGRUNK_ALL}, {words, NULL, ZIGRUNK_ALL}, {NULL, NULL, 0}, {cwd, ZIGRUNK_ALL}, {tmp, ZIGRUNK_ALL}};
    zigrunk_error *error = NULL;
    zigrunk_answer *text = NULL;
    if (zigrunk_call_of(&given, &call, &error) != ZIGRUNK_OK || zigrunk_call_plan(call, &plan, &error) != ZIGRUNK_OK
        || zigrunk_plan_text(plan, (zigrunk_text){"shell", ZIGRUNK_ALL}, &text, &error) != ZIGRUNK_OK) {
        return puts(error ? error->message.bytes : "refused"), 1;
    }
    shell = strdup(text->texts.items[0]);
    zigrunk_free(text);
    pthread_t threads[THREADS];
    for (int i = 0; i < THREADS; i++) {
        if (pthread_create(&threads[i], NULL, run, NULL) != 0) {
            return 1;
        }
    }
    for (int i = 0; i < THREADS; i++) {
        pthread_join(threads[i], NULL);
    }
    zigrunk_free(plan), zigrunk_free(call), free(shell);
    return puts("1 passed, 0 failed") < 0;
}
