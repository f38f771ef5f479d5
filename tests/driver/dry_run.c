// A stand-in for nvcc that costs little: it prints a recorded dry run of a call for one target. DATA is the folder of recorded dry runs, CUDA the
// toolkit, whose path takes the place of the recorded one, as do the source, the output and the directory that keeps files.
#include <stdio.h>
#include <stdlib.h>
#include <string.h>

static const char *source = "k.cu", *output = "k.o", *kept = "";

// Prints a line with the names of this call in place of the recorded ones.
static void print(const char *line) {
    const char *cuda = getenv("CUDA");
    const char *recorded[] = {"/opt/cuda", "/w/kernel.cu", "kernel.o", "/t/"}, *given[] = {cuda ? cuda : "", source, output, kept};
    while (*line) {
        int which = 0;
        while (which < 4 && strncmp(line, recorded[which], strlen(recorded[which])) != 0) {
            which++;
        }
        if (which < 4) {
            fputs(given[which], stderr);
            line += strlen(recorded[which]);
        } else {
            putc(*line++, stderr);
        }
    }
}

int main(int count, char **words) {
    char name[4096], folder[4096], line[1 << 16], buffer[1 << 14];
    int dry = 0;
    for (int at = 1; at < count; at++) {
        const char *next = at + 1 < count ? words[at + 1] : "";
        dry |= strcmp(words[at], "--dryrun") == 0;
        source = strlen(words[at]) > 3 && strcmp(words[at] + strlen(words[at]) - 3, ".cu") == 0 ? words[at] : source;
        output = strcmp(words[at], "-o") == 0 ? next : output;
        if (strcmp(words[at], "--keep-dir") == 0) {
            snprintf(folder, sizeof folder, "%s/", next);
            kept = folder;
        }
    }
    setvbuf(stderr, buffer, _IOFBF, sizeof buffer);
    snprintf(name, sizeof name, "%s/one_target.dry%d", getenv("DATA") ? getenv("DATA") : ".", *kept ? 2 : 1);
    FILE *file = dry ? fopen(name, "r") : NULL;
    while (file && fgets(line, sizeof line, file)) {
        print(line);
    }
    return fflush(stderr) != 0;
}
