// What a process of a tool may do, by the first word. Each but `killed` ends with status 0 if it could do that.
#define _GNU_SOURCE
#include <errno.h>
#include <fcntl.h>
#include <pthread.h>
#include <signal.h>
#include <spawn.h>
#include <stdio.h>
#include <stdlib.h>
#include <string.h>
#include <sys/stat.h>
#include <sys/syscall.h>
#include <sys/wait.h>
#include <unistd.h>

extern char **environ;

static void *look(void *number) {
    char path[64];
    for (int at = 0; at < 200; at++) {
        snprintf(path, sizeof path, "missing.%d.%d", (int)(long)number, at);
        if (access(path, F_OK) == 0 || errno != ENOENT) abort();
    }
    return NULL;
}

static int ended(pid_t child) {
    int status = 0;
    return child > 0 && waitpid(child, &status, 0) == child ? status : -1;
}

static int does(const char *what) {
    char *cat[] = {"cat", "a", NULL}, *none[] = {NULL};
    if (!strcmp(what, "errno")) {
        errno = 77;
        return close(open("a", O_RDONLY)) == 0 && errno == 77 && open("missing", O_RDONLY) == -1 && errno == ENOENT ? 0 : 1;
    }
    if (!strcmp(what, "closed")) return close_range(0, ~0U, 0) == 0 && open("a", O_RDONLY) == 0 && open("missing", O_RDONLY) == -1 ? 0 : 1;
    if (!strcmp(what, "threads")) {
        pthread_t threads[8];
        for (long at = 0; at < 8; at++) pthread_create(&threads[at], NULL, look, (void *)at);
        for (int at = 0; at < 8; at++) pthread_join(threads[at], NULL);
        return 0;
    }
    if (!strcmp(what, "vfork")) {
        pid_t child = vfork();
        if (child == 0) execvp("cat", cat), _exit(1);
        return ended(child);
    }
    if (!strcmp(what, "vfork-fails")) {
        pid_t child = vfork();
        if (child == 0) execv("/missing/cat", cat), _exit(0);
        return ended(child);
    }
    if (!strcmp(what, "spawn")) {
        pid_t child = 0;
        return posix_spawnp(&child, "cat", NULL, NULL, cat, environ) == 0 ? ended(child) : 1;
    }
    if (!strcmp(what, "system")) return system("cat a > /dev/null");
    if (!strcmp(what, "folder")) return openat(open("sub", O_RDONLY | O_DIRECTORY), "x", O_RDONLY) >= 0 ? 0 : 1;
    if (!strcmp(what, "moves")) return chdir("sub") == 0 && open("x", O_RDONLY) >= 0 && open("../a", O_RDONLY) >= 0 ? 0 : 1;
    if (!strcmp(what, "makes")) {
        char name[] = "made.XXXXXX";
        return mkstemp(name) >= 0 && open(name, O_RDONLY) >= 0 && unlink(name) == 0 && fopen("new", "w") && fopen("new", "r") ? 0 : 1;
    }
    if (!strcmp(what, "no-variables")) return execve("/bin/cat", cat, none);
    if (!strcmp(what, "killed")) {
        pid_t child = fork();
        if (child == 0) open("a", O_RDONLY), raise(SIGKILL);
        return ended(child) == SIGKILL ? 0 : 1;
    }
    if (!strcmp(what, "list")) return execl("/bin/cat", "cat", "a", NULL);
    if (!strcmp(what, "kernel")) return syscall(SYS_newfstatat, AT_FDCWD, "a", &(struct stat){0}, 0) == 0 ? 0 : 1;
    if (!strcmp(what, "renames")) return rename("a", "b");
    if (!strcmp(what, "appends")) return fopen("a", "a") ? 0 : 1;
    if (!strcmp(what, "stays")) {
        if (fork() == 0) sleep(5);
        return 0;
    }
    return 2;
}

int main(int count, char **words) { return count > 1 ? does(words[1]) : 2; }
