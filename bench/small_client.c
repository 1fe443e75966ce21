/* A small client of distccd in C, for measures of clients. For each job it runs the preprocessor, sends the request in one write, reads the reply
   and puts the object into its file under a new name, which it renames. Its words are the port at 127.0.0.1 and SOURCE OBJECT for each job, one after the
   other; the compiler is gcc. */
#define _GNU_SOURCE
#include <arpa/inet.h>
#include <fcntl.h>
#include <netinet/tcp.h>
#include <spawn.h>
#include <stdio.h>
#include <stdlib.h>
#include <string.h>
#include <sys/socket.h>
#include <sys/uio.h>
#include <sys/wait.h>
#include <unistd.h>

extern char **environ;
static char source[1 << 24], reply[1 << 24];
static size_t have, at;
static int peer;

/* What the preprocessor prints is in source; gives its length. */
static size_t preprocess(char *file) {
    int ends[2], status;
    if (pipe2(ends, O_CLOEXEC)) exit(1);
    posix_spawn_file_actions_t actions;
    posix_spawn_file_actions_init(&actions);
    posix_spawn_file_actions_adddup2(&actions, ends[1], 1);
    char *words[] = {"gcc", "-E", file, NULL};
    pid_t child;
    if (posix_spawnp(&child, "gcc", &actions, NULL, words, environ)) exit(2);
    close(ends[1]);
    size_t length = 0;
    ssize_t took;
    while ((took = read(ends[0], source + length, sizeof source - length)) > 0) length += took;
    close(ends[0]);
    if (waitpid(child, &status, 0) < 0 || status) exit(3);
    posix_spawn_file_actions_destroy(&actions);
    return length;
}

/* Waits until this number of bytes of the reply after those that were taken are there, and gives their place. */
static char *next(size_t count) {
    while (have < at + count) {
        ssize_t took = read(peer, reply + have, sizeof reply - have);
        if (took <= 0) exit(4);
        have += took;
    }
    at += count;
    return reply + at - count;
}

/* The number of a token of the reply. */
static size_t number(const char *name) {
    char *token = next(12), digits[9] = {0};
    if (memcmp(token, name, 4)) exit(5);
    memcpy(digits, token + 4, 8);
    return strtoul(digits, NULL, 16);
}

/* Sends the request whose preprocessed source has this length. */
static void ask(int port, const char *file, const char *object, size_t length) {
    struct sockaddr_in address = {.sin_family = AF_INET, .sin_port = htons(port), .sin_addr.s_addr = htonl(INADDR_LOOPBACK)};
    peer = socket(AF_INET, SOCK_STREAM | SOCK_CLOEXEC, 0);
    int one = 1;
    setsockopt(peer, IPPROTO_TCP, TCP_NODELAY, &one, sizeof one);
    if (connect(peer, (struct sockaddr *)&address, sizeof address)) exit(6);
    char head[4096];
    int heads = sprintf(head, "DIST00000001ARGC00000005ARGV00000003gccARGV00000002-cARGV%08zx%sARGV00000002-oARGV%08zx%sDOTI%08zx", strlen(file), file,
                        strlen(object), object, length);
    struct iovec parts[] = {{head, heads}, {source, length}};
    if (writev(peer, parts, 2) != (ssize_t)(heads + length)) exit(7);
    have = at = 0;
}

/* Reads the reply, and puts its object into the file. */
static void take(const char *object) {
    if (number("DONE") != 1 || number("STAT") != 0) exit(8);
    next(number("SERR"));
    next(number("SOUT"));
    size_t size = number("DOTO");
    const char *bytes = next(size);
    char staged[64];
    sprintf(staged, "least-%d~", getpid());
    int file = open(staged, O_WRONLY | O_CREAT | O_EXCL | O_CLOEXEC, 0666);
    if (file < 0 || write(file, bytes, size) != (ssize_t)size || close(file) || rename(staged, object)) exit(9);
    close(peer);
}

int main(int count, char **words) {
    if (count < 4 || count % 2) return 10;
    for (int job = 2; job + 1 < count; job += 2) {
        ask(atoi(words[1]), words[job], words[job + 1], preprocess(words[job]));
        take(words[job + 1]);
    }
    return 0;
}
