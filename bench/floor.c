/* The least that COUNT jobs can cost, WORKERS at a time: floor ROOT COUNT WORKERS.

   Job I runs the command `echo $(( I + 1 ))` as `wdl run` runs it: a new directory of its own, `sh` in it by way of a `sh` that
   gives it files as its standard streams, both streams read back, and the directory listed. Nothing is checked that a
   program in use has to check: whose folder ROOT is, whether the directory was there, which file has which kind.

   It ends with 1 where a step fails, and prints the sum of what the commands wrote. */
#define _GNU_SOURCE
#include <dirent.h>
#include <fcntl.h>
#include <pthread.h>
#include <spawn.h>
#include <stdatomic.h>
#include <stdio.h>
#include <stdlib.h>
#include <string.h>
#include <sys/stat.h>
#include <sys/wait.h>
#include <unistd.h>

extern char **environ;

static const char *root;
static int count;
static atomic_int next;
static atomic_llong sum;

static void must(int holds, const char *step) {
    if (holds) return;
    perror(step);
    _exit(1);
}

static void run(char *directory, char *command) {
    char *words[] = {"sh", "-c", "cd \"$1\" && exec \"$3\" -c \"$2\" >_stdout 2>_stderr </dev/null",
                     "sh", directory, command, "sh", NULL};
    pid_t child;
    int status;
    must(posix_spawnp(&child, "sh", NULL, NULL, words, environ) == 0, "spawn");
    must(waitpid(child, &status, 0) == child && status == 0, "wait");
}

/* Reads a file of the directory, and ends its text with a NUL. */
static void read_back(const char *directory, const char *name, char *text, size_t size) {
    char path[4096];
    snprintf(path, sizeof path, "%s/%s", directory, name);
    int file = open(path, O_RDONLY | O_CLOEXEC);
    must(file >= 0, path);
    size_t length = 0;
    ssize_t more;
    while ((more = read(file, text + length, size - 1 - length)) > 0) length += more;
    must(more == 0, path);
    close(file);
    text[length] = 0;
}

static void list(const char *directory) {
    DIR *folder = opendir(directory);
    must(folder != NULL, directory);
    for (struct dirent *entry; (entry = readdir(folder)) != NULL;) {
        struct stat found;
        must(fstatat(dirfd(folder), entry->d_name, &found, AT_SYMLINK_NOFOLLOW) == 0, entry->d_name);
    }
    closedir(folder);
}

static void job(int number) {
    char directory[2048], command[64], out[4096], err[4096];
    snprintf(directory, sizeof directory, "%s/c%d", root, number);
    snprintf(command, sizeof command, "echo $(( %d + 1 ))", number);
    must(mkdir(directory, 0700) == 0, directory);
    run(directory, command);
    read_back(directory, "_stdout", out, sizeof out);
    read_back(directory, "_stderr", err, sizeof err);
    list(directory);
    atomic_fetch_add(&sum, atoll(out));
}

static void *work(void *unused) {
    for (int number; (number = atomic_fetch_add(&next, 1)) < count;) job(number);
    return unused;
}

int main(int words, char **word) {
    must(words == 4, "floor ROOT COUNT WORKERS");
    root = word[1];
    count = atoi(word[2]);
    int workers = atoi(word[3]);
    pthread_t threads[64];
    must(workers > 0 && workers <= 64, "WORKERS");
    must(mkdir(root, 0700) == 0, root);
    for (int i = 0; i < workers; i++) must(pthread_create(&threads[i], NULL, work, NULL) == 0, "thread");
    for (int i = 0; i < workers; i++) pthread_join(threads[i], NULL);
    printf("%lld\n", (long long)sum);
    return 0;
}
