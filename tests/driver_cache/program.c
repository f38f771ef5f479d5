/* A stand-in for a tool that is a program, as the cache wants it: a shell runs the script $STAND_IN with its name and words. With STAND_IN_PARTS, as gcc it
   runs the programs before that of which gcc consists: the compiler beside it, and to make an object the assembler that PATH has. */
#include <spawn.h>
#include <stdio.h>
#include <stdlib.h>
#include <string.h>
#include <sys/wait.h>
#include <unistd.h>

/* By these the driver knows gcc's own program. */
__attribute__((used)) static const char of_gcc[] = "Reading specs from %s\n\0%{!E:%{!M:%{!MM:";
static const char nothing[] = "--do-nothing";

/* Runs a part of gcc, which does nothing. */
static void run(const char *program) {
    extern char **environ;
    char *words[] = {(char *)program, (char *)nothing, NULL};
    pid_t child;
    int status;
    if (posix_spawnp(&child, program, NULL, NULL, words, environ) == 0)
        waitpid(child, &status, 0);
}

static int has(int count, char **words, const char *word) {
    for (int at = 1; at < count; at++)
        if (strcmp(words[at], word) == 0)
            return 1;
    return 0;
}

int main(int count, char **words) {
    char **shell = calloc((size_t)count + 4, sizeof *shell), part[4096];
    const char *slash;
    if (shell == NULL || count < 1)
        return 2;
    if (count == 2 && strcmp(words[1], nothing) == 0)
        return 0;
    slash = strrchr(words[0], '/');
    if (getenv("STAND_IN_PARTS") && strcmp(slash ? slash + 1 : words[0], "gcc") == 0) {
        if (slash && !has(count, words, "assembler") && snprintf(part, sizeof part, "%.*s/cc1plus", (int)(slash - words[0]), words[0]) > 0)
            run(part);
        if (has(count, words, "-c"))
            run("as");
    }
    shell[0] = "sh", shell[1] = "-c", shell[2] = ". \"$STAND_IN\"";
    memcpy(shell + 3, words, (size_t)count * sizeof *words);
    execv("/bin/sh", shell);
    return 127;
}
