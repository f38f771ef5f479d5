/* Makes what nvcc makes, with up to four commands at once: `schedule WORD..` in place of `nvcc WORD..`. The commands print as they run. */
#define _POSIX_C_SOURCE 200809L
#include <errno.h>
#include <limits.h>
#include <stdio.h>
#include <stdlib.h>
#include <string.h>
#include <sys/wait.h>
#include <unistd.h>
#include <zigrunk.h>

extern char **environ;

enum { JOBS = 4 };

static pid_t start(zigrunk_texts words, zigrunk_texts environment, zigrunk_text cwd) {
    pid_t process = fork();
    if (process == 0) {
        if (chdir(cwd.bytes) == 0) {
            environ = (char **)environment.items;
            execvp(words.items[0], (char *const *)words.items);
        }
        perror(words.items[0]);
        _exit(127);
    }
    return process;
}

static int code_of(int status) {
    return WIFEXITED(status) ? WEXITSTATUS(status) : 128 + WTERMSIG(status);
}

/* Runs the commands of a plan. Returns the status of the first, in the plan's order, that fails. */
static int run(const zigrunk_plan *plan) {
    const zigrunk_commands *all = zigrunk_plan_commands(plan);
    size_t count = all->count - all->dropped, failed = count;
    zigrunk_schedule_call given = {&plan, 1, NULL, 0, JOBS, ZIGRUNK_START_EARLIER};
    zigrunk_schedule *schedule = NULL;
    pid_t *running = calloc(count + 1, sizeof *running);
    int result = running && zigrunk_schedule_of(&given, &schedule, NULL) == ZIGRUNK_OK ? 0 : 1;
    while (schedule && !zigrunk_schedule_progress(schedule, 0, count).is_over) {
        for (size_t next; (next = zigrunk_schedule_start(schedule)) != ZIGRUNK_ALL;) {
            running[next] = start(all->items[next].words, all->items[next].environment, all->items[next].cwd);
        }
        int status = 127 << 8;
        pid_t process = waitpid(-1, &status, 0);
        for (size_t i = 0; i < count; i++) {
            if (running[i] == process) {
                int code = code_of(status);
                running[i] = 0;
                zigrunk_schedule_ended(schedule, i, code ? ZIGRUNK_FAILED : ZIGRUNK_SUCCEEDED);
                if (code && i < failed) {
                    failed = i, result = code;
                }
            }
        }
    }
    zigrunk_free(schedule), free(running);
    return result;
}

int main(int count, char **words) {
    (void)count;
    char cwd[PATH_MAX], tmp[] = "/tmp/schedule.XXXXXX";
    if (!getcwd(cwd, sizeof cwd) || !mkdtemp(tmp)) {
        return perror("schedule"), 1;
    }
    const char *const *line = (const char *const *)words + 1, *const *variables = (const char *const *)environ;
    zigrunk_nvcc_call given = {{"nvcc", ZIGRUNK_ALL}, {line, NULL, ZIGRUNK_ALL}, {variables, NULL, ZIGRUNK_ALL}, {cwd, ZIGRUNK_ALL}, {tmp, ZIGRUNK_ALL}};
    zigrunk_call *call = NULL;
    zigrunk_plan *plan = NULL;
    int status = 0;
    if (zigrunk_call_of(&given, &call, NULL) != ZIGRUNK_OK || zigrunk_call_plan(call, &plan, NULL) != ZIGRUNK_OK) {
        rmdir(tmp), execvp(words[0] = "nvcc", words), perror("nvcc"); /* nvcc makes it itself */
        return 127;
    }
    zigrunk_run rule = zigrunk_call_outline(call)->dependencies;
    if (rule.words.count) {
        int ended = 0;
        waitpid(start(rule.words, rule.environment, rule.cwd), &ended, 0);
        status = code_of(ended);
    }
    status = status ? status : run(plan);
    zigrunk_free(plan), zigrunk_free(call);
    char remove[64];
    return snprintf(remove, sizeof remove, "rm -rf %s", tmp), system(remove) ? 1 : status;
}
