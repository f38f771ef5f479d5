/* All that the C library says of the rows of misuses.txt: `answers ROOM < misuses.txt`.
 * `answers --call TMP NVCC WORD..` makes the dry runs of a call in the working directory. The programs for the other languages print the same. */
#include <stdio.h>
#include <stdlib.h>
#include <string.h>
#include <unistd.h>
#include <zigrunk.h>

extern char **environ;

static void print_text(const char *name, const char *bytes, size_t length) {
    printf("%s ", name);
    for (size_t i = 0; i < length; i++) {
        unsigned char byte = (unsigned char)bytes[i];
        if (byte < 33 || byte > 126 || byte == '\\') {
            printf("\\%02x", byte);
        } else {
            putchar(byte);
        }
    }
    putchar('\n');
}

static void print_texts(const char *name, zigrunk_texts texts) {
    for (size_t i = 0; i < texts.count; i++) {
        print_text(name, texts.items[i], texts.lengths[i]);
    }
}

static void print_run(const char *name, zigrunk_run run) {
    printf("%s\n", name);
    print_texts(" word", run.words);
    if (run.words.count) {
        print_texts(" variable", run.environment);
        print_text(" cwd", run.cwd.bytes, run.cwd.length);
    }
}

static void print_refusal(zigrunk_error *error) {
    printf("refused %d %u %zu\n", (int)error->status, (unsigned)error->input, error->line);
    print_text("message", error->message.bytes, error->message.length);
    zigrunk_free(error);
}

static void print_outline(const zigrunk_outline *outline) {
    print_run("own", outline->own_dry_run), print_run("first", outline->first_dry_run), print_run("second", outline->second_dry_run);
    print_run("dependencies", outline->dependencies);
    print_text("flag", outline->flag.bytes, outline->flag.length);
    print_text(outline->keep_dir.bytes ? "keep_dir" : "no keep_dir", outline->keep_dir.bytes, outline->keep_dir.length);
    print_text("input", outline->input.bytes, outline->input.length);
    print_texts("output", outline->outputs);
    printf("jobs %zu\n", outline->jobs);
}

static void print_command(const zigrunk_command *of) {
    printf("command of %s group, %zu, stage %u, tool %u, missing %u, reason %u, run %zu, line %zu, cacheable %u, preprocesses %u\n",
        of->group == ZIGRUNK_ALL ? "no" : "a", of->group == ZIGRUNK_ALL ? 0 : of->group, (unsigned)of->stage, (unsigned)of->tool,
        (unsigned)of->missing, (unsigned)of->reason, of->dry_run, of->line, (unsigned)of->is_cacheable, (unsigned)of->preprocesses);
    print_texts(" word", of->words), print_texts(" variable", of->environment), print_text(" cwd", of->cwd.bytes, of->cwd.length);
    print_texts(" reads", of->reads), print_texts(" writes", of->writes), print_texts(" may write", of->may_write), print_texts(" target", of->targets);
    for (size_t i = 0; i < of->needs_count; i++) {
        printf(" needs %zu\n", of->needs[i]);
    }
}

/* What a function has made, or why not. */
static zigrunk_answer *print_answer(const char *name, int32_t status, zigrunk_answer *answer, zigrunk_error *error) {
    if (status != ZIGRUNK_OK) {
        print_refusal(error);
    } else {
        print_texts(name, answer->texts);
    }
    return answer;
}

static void print_key(const zigrunk_plan *plan, size_t number) {
    zigrunk_answer *answer = NULL;
    zigrunk_error *error = NULL;
    int32_t status = zigrunk_plan_key(plan, number, &answer, &error);
    zigrunk_free(print_answer(" key", status, answer, error));
}

static void print_form(const zigrunk_plan *plan, const char *format) {
    zigrunk_answer *answer = NULL;
    zigrunk_error *error = NULL;
    int32_t status = zigrunk_plan_text(plan, (zigrunk_text){format, ZIGRUNK_ALL}, &answer, &error);
    zigrunk_free(print_answer(format, status, answer, error));
}

/* Words as a shell reads them, what it reads, and the words with other names. */
static void print_own_words(zigrunk_texts words) {
    const char *suffix = ".x.ii";
    size_t length = 5;
    zigrunk_answer *quoted = NULL, *split = NULL, *renamed = NULL;
    zigrunk_error *error = NULL;
    int32_t status = zigrunk_quote(words, &quoted, &error);
    if (print_answer("quoted", status, quoted, error)) {
        status = zigrunk_split((zigrunk_text){*quoted->texts.items, *quoted->texts.lengths}, &split, &error);
        print_answer("split", status, split, error);
    }
    status = zigrunk_remap(words, (zigrunk_texts){&suffix, &length, 1}, &renamed, &error);
    print_answer("other", status, renamed, error);
    zigrunk_free(quoted), zigrunk_free(split), zigrunk_free(renamed);
}

/* The words of the last command with other names, and what a preprocessor's output names. */
static void print_words(zigrunk_texts words) {
    const char *output = "# 1 \"a.h\"\n# 2 \"k \\\"b\" 2\n# 3 \"a.h\"\n";
    zigrunk_answer *renamed = NULL, *headers = NULL;
    if (zigrunk_remap(words, (zigrunk_texts){0}, &renamed, NULL) != ZIGRUNK_OK || zigrunk_headers((zigrunk_text){output, ZIGRUNK_ALL}, &headers, NULL) != ZIGRUNK_OK) {
        exit(2);
    }
    print_texts("renamed", renamed->texts);
    print_texts("header", headers->texts);
    zigrunk_free(renamed), zigrunk_free(headers);
}

/* Two slots, and the command that began first ends first. */
static void print_schedule(const zigrunk_plan *plan, size_t count) {
    zigrunk_schedule_call given = {&plan, 1, NULL, 0, 2, ZIGRUNK_START_EARLIER};
    zigrunk_schedule *schedule = NULL;
    size_t *started = calloc(count + 1, sizeof *started), begun = 0, ended = 0;
    if (!started || zigrunk_schedule_of(&given, &schedule, NULL) != ZIGRUNK_OK) {
        exit(2);
    }
    while (!zigrunk_schedule_progress(schedule, 0, count).is_over) {
        for (size_t next; (next = zigrunk_schedule_start(schedule)) != ZIGRUNK_ALL;) {
            printf("start %zu\n", started[begun++] = next);
        }
        if (zigrunk_schedule_ended(schedule, started[ended++], ZIGRUNK_SUCCEEDED) != ZIGRUNK_OK) {
            exit(2);
        }
        printf("told %zu\n", zigrunk_schedule_progress(schedule, 0, count).told);
    }
    zigrunk_free(schedule), free(started);
}

/* One slot, and the third command fails. */
static void print_failure(const zigrunk_plan *plan, size_t count) {
    zigrunk_schedule_call given = {&plan, 1, NULL, 0, 1, ZIGRUNK_START_EARLIER};
    zigrunk_schedule *schedule = NULL;
    size_t next;
    if (zigrunk_schedule_of(&given, &schedule, NULL) != ZIGRUNK_OK) {
        exit(2);
    }
    while ((next = zigrunk_schedule_start(schedule)) != ZIGRUNK_ALL) {
        zigrunk_schedule_ended(schedule, next, next == 2 ? ZIGRUNK_FAILED : ZIGRUNK_SUCCEEDED);
        printf("alone %zu, told %zu\n", next, zigrunk_schedule_progress(schedule, 0, count).told);
    }
    printf("again %d\n", zigrunk_schedule_ended(schedule, 0, ZIGRUNK_SUCCEEDED) == ZIGRUNK_OK);
    zigrunk_free(schedule);
}

/* What the line of a cicc command says, how it is written back, and the key of such a command without a plan. */
static void print_line(const zigrunk_command *of) {
    zigrunk_texts words = {of->words.items + 1, of->words.lengths + 1, of->words.count - 1}, root = {&of->cwd.bytes, &of->cwd.length, 1};
    zigrunk_line_call given = {of->cwd, words, {NULL, NULL, 0}, ZIGRUNK_TOOL_CICC};
    zigrunk_key_call key_call = {of->words, of->environment, root, ZIGRUNK_TOOL_CICC};
    zigrunk_line *line = NULL;
    zigrunk_answer *written = NULL, *key = NULL;
    if (zigrunk_line_records(&given, &line, NULL) != ZIGRUNK_OK || zigrunk_line_words(&given, &written, NULL) != ZIGRUNK_OK ||
        zigrunk_command_key(&key_call, &key, NULL) != ZIGRUNK_OK) {
        exit(2);
    }
    print_text(" line", line->input.bytes, line->input.length);
    print_text(" line", line->compilation_flag.bytes, line->compilation_flag.length);
    print_texts(" line", line->output_keys), print_texts(" line", line->output_paths), print_texts(" line", line->dependency_args);
    print_texts(" line", line->preprocessor_args), print_texts(" line", line->common_args), print_texts(" line", line->arch_args);
    print_texts(" line", line->unhashed_args), print_texts(" line", line->extra_dist_files), print_texts(" line", line->extra_hash_files);
    printf(" line of %u %u %u %zu\n", (unsigned)line->language, (unsigned)line->color_mode, (unsigned)line->double_dash_input, *line->output_is_optional);
    print_texts(" written", written->texts), print_texts(" own key", key->texts);
    zigrunk_free(line), zigrunk_free(written), zigrunk_free(key);
}

/* The look-ups of a call, the paths that each tries, and the plan if each finds the first, and if the first finds none. */
static void print_table(const zigrunk_call *call, zigrunk_dry_runs runs, const char *cwd) {
    zigrunk_found_program programs[16];
    zigrunk_answer *asked = NULL, *tried[16] = {NULL};
    zigrunk_plan *plan = NULL;
    zigrunk_text folder = {cwd, ZIGRUNK_ALL};
    if (zigrunk_lookups(runs.first, runs.second, folder, 0, &asked, NULL) != ZIGRUNK_OK || asked->texts.count > 32) {
        exit(2);
    }
    print_texts("lookup", asked->texts);
    for (size_t i = 0; i < asked->texts.count / 2; i++) {
        zigrunk_text program = {asked->texts.items[2 * i], ZIGRUNK_ALL}, path = {asked->texts.items[2 * i + 1], ZIGRUNK_ALL};
        if (zigrunk_candidates(program, path, folder, &tried[i], NULL) != ZIGRUNK_OK) {
            exit(2);
        }
        print_texts("candidate", tried[i]->texts);
        programs[i] = (zigrunk_found_program){program, path, {*tried[i]->texts.items, *tried[i]->texts.lengths}};
    }
    runs.programs = programs, runs.programs_count = asked->texts.count / 2;
    zigrunk_error *error = NULL;
    int32_t status = zigrunk_call_plan_of(call, &runs, &plan, &error);
    if (status == ZIGRUNK_OK) {
        print_form(plan, "text");
        zigrunk_free(plan), programs->found = (zigrunk_text){"", 0};
        status = zigrunk_call_plan_of(call, &runs, &plan, &error);
    }
    if (status != ZIGRUNK_OK) {
        print_refusal(error);
    }
    for (size_t i = 0; i < 16; i++) {
        zigrunk_free(tried[i]);
    }
    zigrunk_free(plan), zigrunk_free(asked);
}

static void print_plan(const zigrunk_plan *plan) {
    const zigrunk_commands *all = zigrunk_plan_commands(plan);
    for (size_t i = 0; i < all->count; i++) {
        print_command(&all->items[i]);
        if (all->items[i].tool == ZIGRUNK_TOOL_CICC) {
            print_line(&all->items[i]);
        }
        if (i < all->count - all->dropped) {
            print_key(plan, i);
        }
    }
    const char *formats[] = {"json", "ninja", "shell", "text", "none"};
    for (size_t i = 0; i < 5; i++) {
        print_form(plan, formats[i]);
    }
    print_words(all->items[all->count - all->dropped - 1].words);
    print_schedule(plan, all->count - all->dropped);
    print_failure(plan, all->count - all->dropped);
}

/* The content of a file of the room. */
static zigrunk_text content(const char *room, const char *name) {
    char path[4096];
    snprintf(path, sizeof path, "%s/%s", room, name);
    FILE *file = fopen(path, "rb");
    char *bytes = malloc(1 << 20);
    if (!file || !bytes) {
        exit(2);
    }
    size_t length = fread(bytes, 1, 1 << 20, file);
    fclose(file);
    return (zigrunk_text){bytes, length};
}

/* Two dry runs without their line, within a limit: the commands, with those that are dropped. */
static void print_alone(zigrunk_dry_runs runs, zigrunk_text cwd, zigrunk_text tmp, size_t limit) {
    const char *variables[] = {"ODD=a b", "EMPTY=", NULL};
    zigrunk_plan_call given = {runs.first, runs.second, cwd, tmp, {"-c", ZIGRUNK_ALL}, {variables, NULL, ZIGRUNK_ALL}, {NULL, NULL, 0}, NULL, 0, limit,
        ZIGRUNK_GCC, 0};
    zigrunk_plan *plan = NULL;
    zigrunk_error *error = NULL;
    printf("without a line, %zu\n", limit);
    if (zigrunk_plan_of(&given, &plan, &error) != ZIGRUNK_OK) {
        print_refusal(error);
        return;
    }
    const zigrunk_commands *all = zigrunk_plan_commands(plan);
    for (size_t i = 0; i < all->count; i++) {
        print_command(&all->items[i]);
    }
    print_form(plan, "compdb");
    zigrunk_free(plan);
}

static void print_row(const char *room, const char *tmp_name, const char *first, const char *second, const char *own, const char *line) {
    char nvcc[4096], cwd[4096], tmp[4096];
    snprintf(nvcc, sizeof nvcc, "%s/bin/nvcc", room), snprintf(cwd, sizeof cwd, "%s/w", room), snprintf(tmp, sizeof tmp, "%s/%s", room, tmp_name);
    const char *items[64];
    size_t lengths[64];
    zigrunk_text whole = content(room, line);
    zigrunk_texts words = {items, lengths, 0}, environment = {(const char *const *)environ, NULL, ZIGRUNK_ALL};
    for (const char *at = whole.bytes; at < whole.bytes + whole.length && words.count < 64; at += lengths[words.count++] + 1) {
        items[words.count] = at, lengths[words.count] = strlen(at);
    }
    zigrunk_nvcc_call given = {{nvcc, ZIGRUNK_ALL}, words, environment, {cwd, ZIGRUNK_ALL}, {tmp, ZIGRUNK_ALL}};
    zigrunk_dry_runs runs = {content(room, own), content(room, first), content(room, second), NULL, 0, 0};
    zigrunk_call *call = NULL;
    zigrunk_plan *plan = NULL;
    zigrunk_error *error = NULL;
    if (zigrunk_call_of(&given, &call, &error) != ZIGRUNK_OK) {
        print_refusal(error);
    } else if (print_outline(zigrunk_call_outline(call)), zigrunk_call_plan_of(call, &runs, &plan, &error) != ZIGRUNK_OK) {
        print_refusal(error);
    } else {
        print_plan(plan);
        print_table(call, runs, cwd);
    }
    zigrunk_free(plan), zigrunk_free(call);
    print_alone(runs, given.cwd, given.tmp, 1 << 20), print_alone(runs, given.cwd, given.tmp, 1000);
    print_own_words(words);
    free((void *)runs.own.bytes), free((void *)runs.first.bytes), free((void *)runs.second.bytes), free((void *)whole.bytes);
}

static void print_made(const char *tmp, char **nvcc) {
    char cwd[4096];
    zigrunk_texts words = {(const char *const *)nvcc + 1, NULL, ZIGRUNK_ALL}, environment = {(const char *const *)environ, NULL, ZIGRUNK_ALL};
    zigrunk_nvcc_call given = {{*nvcc, ZIGRUNK_ALL}, words, environment, {getcwd(cwd, sizeof cwd), ZIGRUNK_ALL}, {tmp, ZIGRUNK_ALL}};
    zigrunk_call *call = NULL;
    zigrunk_plan *plan = NULL;
    zigrunk_error *error = NULL;
    if (zigrunk_call_of(&given, &call, &error) != ZIGRUNK_OK) {
        print_refusal(error);
    } else if (print_outline(zigrunk_call_outline(call)), zigrunk_call_plan(call, &plan, &error) != ZIGRUNK_OK) {
        print_refusal(error);
    } else {
        print_plan(plan);
    }
    zigrunk_free(plan), zigrunk_free(call);
}

int main(int count, char **arguments) {
    char line[1024], name[64], tmp[64], first[64], second[64], own[64], words[64];
    if (count > 3 && strcmp(arguments[1], "--call") == 0) {
        print_made(arguments[2], arguments + 3);
        return 0;
    }
    while (count >= 2 && fgets(line, sizeof line, stdin)) {
        if (sscanf(line, "%63s %63s %63s %63s %*s %*s %*s %63s %63s", name, tmp, first, second, own, words) != 6) {
            return 2;
        }
        printf("== %s\n", name);
        print_row(arguments[1], tmp, first, second, own, words);
    }
    return count < 2;
}
