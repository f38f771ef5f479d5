/* Calls of libzigrunk in which allocations fail: each in turn, then by lot. `failing_memory ROOM SEED COUNT`: COUNT is how many to refuse in all.
 * A function either says that no memory is left, or what it says otherwise; and what it took is given back. */
#include <stdio.h>
#include <stdlib.h>
#include <string.h>
#include <zigrunk.h>

void *__real_malloc(size_t size);
void *__real_calloc(size_t count, size_t size);
void *__real_realloc(void *old, size_t size);
int __real_posix_memalign(void **made, size_t alignment, size_t size);
void __real_free(void *old);

static long asked, refuse_at, held, refused;
static unsigned long long state;

/* Whether the next allocation fails: the one with a number, or one in about so many by lot. */
static int fails(void) {
    asked++;
    if (refuse_at < 0) {
        state = state * 6364136223846793005u + 1442695040888963407u;
        return (state >> 33) % (unsigned long long)-refuse_at == 0 ? (refused++, 1) : 0;
    }
    return asked == refuse_at ? (refused++, 1) : 0;
}

void *__wrap_malloc(size_t size) {
    return fails() ? NULL : (held++, __real_malloc(size));
}

void *__wrap_calloc(size_t count, size_t size) {
    return fails() ? NULL : (held++, __real_calloc(count, size));
}

void *__wrap_realloc(void *old, size_t size) {
    return fails() ? NULL : (held += !old, __real_realloc(old, size));
}

int __wrap_posix_memalign(void **made, size_t alignment, size_t size) {
    return fails() ? 12 : (held++, __real_posix_memalign(made, alignment, size));
}

void __wrap_free(void *old) {
    held -= old != NULL;
    __real_free(old);
}

static char room[4096], nvcc[4200], other_nvcc[4200], cwd[4200], tmp[4200], first[1 << 16], second[1 << 16], own[1 << 16];

static size_t content(const char *name, char *to) {
    char path[4200];
    snprintf(path, sizeof path, "%s/%s", room, name);
    FILE *file = fopen(path, "rb");
    size_t length = file ? fread(to, 1, 1 << 16, file) : 0;
    if (!file || fclose(file) != 0) {
        exit(2);
    }
    return length;
}

static size_t lengths[3];
static const char *const words[] = {"-c", "kernel.cu", "-o", "kernel.o", NULL};
static const char *const variables[] = {"A=1", "B=\xff", NULL};
static const zigrunk_texts line = {words, NULL, ZIGRUNK_ALL}, environment = {variables, NULL, ZIGRUNK_ALL}, none;

static zigrunk_text text(const char *of) {
    return (zigrunk_text){of, ZIGRUNK_ALL};
}

/* The functions, each by its number; what it made is freed. -1 behind the last. */
static int32_t made(int number) {
    void *it = NULL, *other = NULL;
    zigrunk_error *error = NULL;
    zigrunk_answer **answer = (zigrunk_answer **)&it;
    zigrunk_nvcc_call call = {text(nvcc), line, environment, text(cwd), text(tmp)};
    zigrunk_dry_runs runs = {{own, lengths[2]}, {first, lengths[0]}, {second, lengths[1]}, NULL, 0, 1 << 20};
    zigrunk_plan_call plan = {{first, lengths[0]}, {second, lengths[1]}, text(cwd), text(tmp), text("-c"), environment, none, NULL, 0, 0, 0, 0};
    zigrunk_line_call cicc = {text("/w"), {(const char *const[]){"-arch", "compute_80", "x.cpp1.ii", "-o", "x.ptx", NULL}, NULL, ZIGRUNK_ALL}, none, 0};
    zigrunk_key_call key = {line, environment, line, 0};
    int32_t status = -1;
    switch (number) {
    case 0: status = zigrunk_call_of(&call, (zigrunk_call **)&it, &error); break;
    case 1:
        status = zigrunk_call_of(&call, (zigrunk_call **)&it, &error);
        status = status ? status : zigrunk_call_plan_of(it, &runs, (zigrunk_plan **)&other, &error);
        break;
    case 2: status = zigrunk_plan_of(&plan, (zigrunk_plan **)&it, &error); break;
    case 3: case 4: case 5: case 6:
        status = zigrunk_plan_of(&plan, (zigrunk_plan **)&it, &error);
        status = status ? status : zigrunk_plan_text(it, text((const char *[]){"json", "ninja", "shell", "text"}[number - 3]), (zigrunk_answer **)&other, &error);
        break;
    case 7: {
        status = zigrunk_plan_of(&plan, (zigrunk_plan **)&it, &error);
        zigrunk_schedule_call given = {(const zigrunk_plan *const[]){it}, 1, NULL, 0, 2, ZIGRUNK_GO_ON};
        status = status ? status : zigrunk_schedule_of(&given, (zigrunk_schedule **)&other, &error);
        break;
    }
    case 8: status = zigrunk_line_records(&cicc, (zigrunk_line **)&it, &error); break;
    case 9: status = zigrunk_line_words(&cicc, answer, &error); break;
    case 10: status = zigrunk_command_key(&key, answer, &error); break;
    case 11: status = zigrunk_split(text("a 'b c' d"), answer, &error); break;
    case 12: status = zigrunk_quote(line, answer, &error); break;
    case 13: status = zigrunk_remap(line, none, answer, &error); break;
    case 14: status = zigrunk_lookups(plan.dry1, plan.dry2, plan.cwd, 0, answer, &error); break;
    case 15: status = zigrunk_candidates(text("g++"), text("/a:b"), text("/w"), answer, &error); break;
    case 16: status = zigrunk_split(text("a 'b"), answer, &error); break; /* an error has memory, too */
    case 17: status = zigrunk_headers(text("# 1 \"a.h\"\n# 2 \"b \xff\\\"\" 2\n# 3 \"a.h\"\n"), answer, &error); break;
    case 18: case 19: case 20: case 21: /* keys of cudafe++, cicc and ptxas, and of a command that has none */
        status = zigrunk_plan_of(&plan, (zigrunk_plan **)&it, &error);
        status = status ? status : zigrunk_plan_key(it, (size_t)(number - 17), (zigrunk_answer **)&other, &error);
        break;
    case 22: /* nvcc's own processes */
        status = zigrunk_call_of(&call, (zigrunk_call **)&it, &error);
        status = status ? status : zigrunk_call_plan(it, (zigrunk_plan **)&other, &error);
        break;
    case 23: { /* a path that is longer than the system's longest */
        static char odd[6100] = "#$ PATH=/";
        memset(odd + 9, 'a', 6000), strcpy(odd + 6009, "\n#$ gcc -E x.cu\n");
        plan.dry1 = plan.dry2 = text(odd);
        status = zigrunk_plan_of(&plan, (zigrunk_plan **)&it, &error);
        break;
    }
    case 24: /* a program that refuses the line, with a message */
        call.nvcc.bytes = other_nvcc;
        status = zigrunk_call_of(&call, (zigrunk_call **)&it, &error);
        status = status ? status : zigrunk_call_plan(it, (zigrunk_plan **)&other, &error);
        break;
    default: break;
    }
    if (status > 0 && (!error || error->status != status)) {
        exit(3);
    }
    zigrunk_free(error), zigrunk_free(other), zigrunk_free(it);
    return status;
}

static void tried(int number, long at, int32_t wanted) {
    long before = held, gone = refused;
    asked = 0, refuse_at = at;
    int32_t status = made(number);
    refuse_at = 0;
    if ((status != wanted && !(status == ZIGRUNK_OUT_OF_MEMORY && refused > gone)) || held != before) {
        printf("function %d, allocation %ld: status %d, %ld held\n", number, at, (int)status, held - before);
        exit(1);
    }
}

int main(int count, char **arguments) {
    if (count != 4) {
        return 2;
    }
    snprintf(room, sizeof room, "%s", arguments[1]);
    snprintf(nvcc, sizeof nvcc, "%s/bin/nvcc", room), snprintf(other_nvcc, sizeof other_nvcc, "%s/bin/cudafe++", room);
    snprintf(cwd, sizeof cwd, "%s/w", room), snprintf(tmp, sizeof tmp, "%s/t", room);
    lengths[0] = content("one.dry1", first), lengths[1] = content("one.dry2", second), lengths[2] = content("one.own", own);
    state = strtoull(arguments[2], NULL, 10);
    long most = atol(arguments[3]);
    int functions = 0;
    for (int32_t wanted; (wanted = made(functions)) >= 0; functions++) {
        asked = 0;
        made(functions);
        for (long at = 1, all = asked; at <= all; at++) {
            tried(functions, at, wanted);
        }
    }
    for (long i = 0; refused < most; i++) {
        int number = (int)(i % functions);
        tried(number, -(2 + (i / functions) % 200), made(number));
    }
    printf("%d functions, %ld allocations refused\n1 passed, 0 failed\n", functions, refused);
    return 0;
}
