/* Asks a program about many streams, quickly. usage: answers PROGRAM WORD.. < streams > answers

   Each stream on standard input is its length in four bytes and its bytes. PROGRAM WORD.. /dev/fd/3 is run over it. Each answer on
   standard output is three numbers of four bytes, and then the bytes counted: the status (256 and the signal, if one ended the program),
   how many bytes of standard output there are, and how many of standard error. Numbers are as this machine has them. A run ends after 20
   seconds of the processor. */
#define _GNU_SOURCE
#include <fcntl.h>
#include <spawn.h>
#include <stdint.h>
#include <stdio.h>
#include <stdlib.h>
#include <string.h>
#include <sys/mman.h>
#include <sys/resource.h>
#include <sys/wait.h>
#include <unistd.h>

extern char **environ;

static void check(int good, const char *what)
{
    if (!good) {
        perror(what);
        exit(1);
    }
}

/* What a file that was written has, and empties it. */
static uint32_t taken(int file, char *bytes, size_t room)
{
    ssize_t length = pread(file, bytes, room, 0);
    check(length >= 0 && ftruncate(file, 0) == 0 && lseek(file, 0, SEEK_SET) == 0, "answer");
    return length;
}

int main(int count, char **words)
{
    static char stream[1 << 24], out[1 << 16], error[1 << 16];
    check(count > 2 && count < 16, "usage: answers PROGRAM WORD..");
    char *line[17] = { 0 };
    memcpy(line, words + 1, (count - 1) * sizeof *words);
    line[count - 1] = "/dev/fd/3";
    int given = memfd_create("stream", MFD_CLOEXEC), printed = memfd_create("out", MFD_CLOEXEC), told = memfd_create("error", MFD_CLOEXEC);
    posix_spawn_file_actions_t files;
    posix_spawn_file_actions_init(&files);
    posix_spawn_file_actions_addopen(&files, 0, "/dev/null", O_RDONLY, 0);
    posix_spawn_file_actions_adddup2(&files, printed, 1);
    posix_spawn_file_actions_adddup2(&files, told, 2);
    posix_spawn_file_actions_adddup2(&files, given, 3);
    uint32_t length;
    while (fread(&length, 4, 1, stdin) == 1) {
        check(length <= sizeof stream && fread(stream, 1, length, stdin) == length, "stream");
        check(ftruncate(given, 0) == 0 && pwrite(given, stream, length, 0) == (ssize_t)length, "stream");
        int status;
        pid_t child;
        check(posix_spawn(&child, words[1], &files, NULL, line, environ) == 0, words[1]);
        /* of the child alone: what this process does for some hundred thousand streams takes longer */
        check(prlimit(child, RLIMIT_CPU, &(struct rlimit){ 20, 20 }, NULL) == 0, "limit");
        check(waitpid(child, &status, 0) == child, "wait");
        uint32_t head[3] = { WIFEXITED(status) ? WEXITSTATUS(status) : 256 + WTERMSIG(status), taken(printed, out, sizeof out),
                             taken(told, error, sizeof error) };
        fwrite(head, 4, 3, stdout);
        fwrite(out, 1, head[1], stdout);
        fwrite(error, 1, head[2], stdout);
        check(fflush(stdout) == 0, "standard output");
    }
    return 0;
}
