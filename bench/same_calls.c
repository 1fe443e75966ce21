/* What farm's worker does for jobs that it compiles here, in C: the same calls of the system, one job after the other.
   Its words are those of `farm build`, and are passed over; the jobs are lines of `gcc -O1 -c SOURCE -o OBJECT` on standard input. */
#define _GNU_SOURCE
#include <dirent.h>
#include <fcntl.h>
#include <spawn.h>
#include <stdio.h>
#include <stdlib.h>
#include <string.h>
#include <sys/random.h>
#include <sys/stat.h>
#include <sys/wait.h>
#include <unistd.h>

extern char **environ;
static char *buffer;
static const size_t ROOM = 1 << 26;

static void random_name(char *path, const char *folder) {
    unsigned char word[16];
    if (getentropy(word, sizeof word)) exit(1);
    int n = sprintf(path, "%s/farm-", folder);
    for (int i = 0; i < 16; i++) n += sprintf(path + n, "%02x", word[i]);
}

static int nameless(const char *folder) {
    char path[4096];
    random_name(path, folder);
    int fd = open(path, O_RDWR | O_CREAT | O_EXCL | O_CLOEXEC, 0600);
    if (fd < 0 || unlink(path)) exit(2);
    return fd;
}

static size_t read_all(int fd) {
    size_t have = 0;
    ssize_t n;
    while ((n = read(fd, buffer + have, ROOM - have)) > 0) have += n;
    return have;
}

static void write_all(int fd, const char *from, size_t count) {
    while (count) {
        ssize_t n = write(fd, from, count);
        if (n <= 0) exit(3);
        from += n;
        count -= n;
    }
}

/* Runs the words to their end; what they print is in the buffer. */
static size_t run(char *const *words, const char *folder) {
    int messages = nameless(folder), ends[2], null = open("/dev/null", O_RDONLY | O_CLOEXEC);
    if (pipe2(ends, O_CLOEXEC)) exit(4);
    posix_spawn_file_actions_t actions;
    posix_spawn_file_actions_init(&actions);
    posix_spawn_file_actions_adddup2(&actions, null, 0);
    posix_spawn_file_actions_adddup2(&actions, ends[1], 1);
    posix_spawn_file_actions_adddup2(&actions, messages, 2);
    pid_t pid;
    if (posix_spawn(&pid, "/usr/bin/gcc", &actions, NULL, words, environ)) exit(5);
    posix_spawn_file_actions_destroy(&actions);
    close(null);
    close(ends[1]);
    size_t have = read_all(ends[0]);
    close(ends[0]);
    int status;
    wait4(pid, &status, 0, NULL);
    if (status) exit(6);
    lseek(messages, 0, SEEK_SET);
    char text[4096];
    while (read(messages, text, sizeof text) > 0);
    close(messages);
    return have;
}

static void remove_whole(const char *path) {
    struct stat found;
    if (lstat(path, &found)) exit(7);
    DIR *dir = opendir(path);
    struct dirent *entry;
    while ((entry = readdir(dir)))
        if (strcmp(entry->d_name, ".") && strcmp(entry->d_name, "..")) unlinkat(dirfd(dir), entry->d_name, 0);
    closedir(dir);
    if (rmdir(path)) exit(8);
}

int main(void) {
    const char *tmp = getenv("TMPDIR");
    if (!tmp || !*tmp) tmp = "/tmp";
    buffer = malloc(ROOM);
    char source[1000], object[1000];
    int jobs = 0;
    while (scanf("gcc -O1 -c %999s -o %999s\n", source, object) == 2) {
        char *preprocess[] = {"gcc", "-O1", "-E", source, NULL};
        size_t have = run(preprocess, tmp);
        char folder[4096], input[8192], output[8192];
        random_name(folder, tmp);
        if (mkdir(folder, 0700)) exit(9);
        sprintf(input, "%s/input.i", folder);
        sprintf(output, "%s/output.o", folder);
        int fd = open(input, O_RDWR | O_CREAT | O_EXCL | O_CLOEXEC, 0600);
        write_all(fd, buffer, have);
        close(fd);
        char *compile[] = {"gcc", "-O1", "-c", input, "-o", output, NULL};
        run(compile, folder);
        fd = open(output, O_RDONLY | O_CLOEXEC);
        have = read_all(fd);
        close(fd);
        remove_whole(folder);
        struct stat found;
        stat(object, &found);
        char staged[64];
        sprintf(staged, "farm-%d-%d.farm~", getpid(), ++jobs);
        fd = open(staged, O_WRONLY | O_CREAT | O_EXCL | O_CLOEXEC, 0666);
        write_all(fd, buffer, have);
        stat(object, &found);
        if (rename(staged, object)) exit(10);
        close(fd);
    }
    printf("total %d\n", jobs);
    return 0;
}
