/* What the fuzzer starts: one input to one run of the program, over files that are the same each time.
 *
 * fuzzed replay  PROGRAM FILES     the input is a stream of frames
 * fuzzed queries PROGRAM FILES     the input is messages, each behind its length of two bytes with the high byte first, as over
 *                                  TCP (RFC 1035, 4.2.2); they come as the frames of queries
 *
 * FILES is a folder with the files of a store; it runs in the folder where it is started, into which they are copied. It aborts,
 * which the fuzzer counts as a crash, where the program ends otherwise than by all frames answered or a bad or cut frame, and
 * where the files aren't opened behind it. For each input the file `runs` gets a byte longer.
 */
#include <fcntl.h>
#include <signal.h>
#include <stdio.h>
#include <stdlib.h>
#include <string.h>
#include <sys/mman.h>
#include <sys/prctl.h>
#include <sys/wait.h>
#include <unistd.h>

enum { ROOM = 1 << 20, QUERY = 3, DONE = 0, BAD_INPUT = 4 };

static const char *names[] = {"nmc.0", "nmc.1", "nmc.2"};
static unsigned char input[ROOM], frames[3 * ROOM];

static void stop_at(int failed, const char *what) {
    if (failed) {
        perror(what);
        exit(1);
    }
}

/* All that can be read, up to the room. */
static size_t all_of(int from, unsigned char *into, size_t room) {
    size_t length = 0;
    ssize_t got;
    while ((got = read(from, into + length, room - length)) > 0) length += got;
    return length;
}

static void copy_file(const char *folder, const char *name) {
    char path[4096];
    snprintf(path, sizeof path, "%s/%s", folder, name);
    int from = open(path, O_RDONLY), into = open(name, O_WRONLY | O_CREAT | O_TRUNC, 0600);
    stop_at(from < 0 || into < 0, name);
    size_t length = all_of(from, frames, sizeof frames);
    stop_at(write(into, frames, length) != (ssize_t)length, name);
    close(from);
    close(into);
}

/* Tells that there was one input more. */
static void count_run(void) {
    int runs = open("runs", O_WRONLY | O_CREAT | O_APPEND, 0600);
    stop_at(runs < 0 || write(runs, "!", 1) != 1, "runs");
    close(runs);
}

/* The messages as frames. A message whose length goes past the end has what is left. */
static size_t as_frames(size_t length) {
    size_t at = 0, end = 0;
    while (at + 2 <= length) {
        size_t size = input[at] << 8 | input[at + 1];
        at += 2;
        if (size > length - at) size = length - at;
        frames[end] = QUERY;
        for (int byte = 0; byte < 4; byte++) frames[end + 1 + byte] = size >> 8 * byte;
        memcpy(frames + end + 5, input + at, size);
        end += 5 + size;
        at += size;
    }
    return end;
}

/* How a run of the program ends, which gets the bytes as its standard input. */
static int status_of(const char *program, const char *word, const unsigned char *text, size_t length) {
    int given = memfd_create("given", 0);
    stop_at(given < 0 || write(given, text, length) != (ssize_t)length || lseek(given, 0, SEEK_SET) != 0, "input");
    pid_t run = fork();
    stop_at(run < 0, "fork");
    if (run == 0) {
        /* The fuzzer ends this program by a signal where it takes too long, and the other goes with it. */
        prctl(PR_SET_PDEATHSIG, SIGKILL);
        dup2(given, 0);
        execl(program, program, word, (char *)NULL);
        _exit(127);
    }
    close(given);
    int status;
    stop_at(waitpid(run, &status, 0) != run, "wait");
    return WIFEXITED(status) ? WEXITSTATUS(status) : -1;
}

int main(int count, char **words) {
    if (count != 4) return 2;
    for (int file = 0; file < 3; file++) copy_file(words[3], names[file]);
    count_run();
    size_t length = all_of(0, input, sizeof input);
    int is_queries = !strcmp(words[1], "queries");
    if (is_queries) length = as_frames(length);
    int status = status_of(words[2], "replay", is_queries ? frames : input, length);
    if (status != DONE && (is_queries || status != BAD_INPUT)) abort();
    if (!is_queries && status_of(words[2], "dump", NULL, 0) != DONE) abort();
    return 0;
}
