/* Plans two dry runs again and again, so that tests/instructions.sh can count what one call costs: `work FORM COUNT CWD TMP FLAG DRY1 DRY2`. FORM is
 * that of a text, or `records`. Each program counts as being at the first path that its look-up tries. */
#include <stdio.h>
#include <stdlib.h>
#include <string.h>
#include <zigrunk.h>

enum { MOST = 256 };

static zigrunk_found_program programs[MOST];

static zigrunk_text text(const char *of) {
    return (zigrunk_text){of, ZIGRUNK_ALL};
}

static zigrunk_text content(const char *path) {
    static char all[2][1 << 24];
    static int count;
    FILE *file = fopen(path, "rb");
    char *to = all[count++];
    size_t length = file ? fread(to, 1, sizeof all[0], file) : 0;
    if (!file || fclose(file) != 0) {
        perror(path), exit(1);
    }
    return (zigrunk_text){to, length};
}

static void must(int32_t status) {
    if (status != ZIGRUNK_OK) {
        fprintf(stderr, "work: status %d\n", (int)status), exit(1);
    }
}

/* Fills the table of programs. What it points to is never freed. */
static size_t look_up(const zigrunk_plan_call *given) {
    zigrunk_answer *asked = NULL, *found = NULL;
    must(zigrunk_lookups(given->dry1, given->dry2, given->cwd, 0, &asked, NULL));
    size_t count = asked->texts.count / 2;
    for (size_t i = 0; i < count && i < MOST; i++) {
        zigrunk_text program = text(asked->texts.items[2 * i]), path = text(asked->texts.items[2 * i + 1]);
        must(zigrunk_candidates(program, path, given->cwd, &found, NULL));
        programs[i] = (zigrunk_found_program){program, path, text(found->texts.items[0])};
    }
    return count < MOST ? count : MOST;
}

int main(int count, char **words) {
    if (count != 8) {
        return fprintf(stderr, "usage: work FORM COUNT CWD TMP FLAG DRY1 DRY2\n"), 2;
    }
    zigrunk_plan_call given = {.dry1 = content(words[6]), .dry2 = content(words[7]), .cwd = text(words[3]), .tmp = text(words[4]), .flag = text(words[5])};
    given.programs_count = look_up(&given), given.programs = programs;
    for (long left = atol(words[2]); left > 0; left--) {
        zigrunk_plan *plan = NULL;
        zigrunk_answer *written = NULL;
        must(zigrunk_plan_of(&given, &plan, NULL));
        if (strcmp(words[1], "records") != 0) {
            must(zigrunk_plan_text(plan, text(words[1]), &written, NULL));
        } else if (zigrunk_plan_commands(plan)->count == 0) {
            return 1;
        }
        zigrunk_free(written), zigrunk_free(plan);
    }
    return 0;
}
