/* One run of a program, for the tests: what it wrote on standard output and standard error, and how it ended. */
#define _GNU_SOURCE
#include <errno.h>
#include <fcntl.h>
#include <signal.h>
#include <spawn.h>
#include <stdio.h>
#include <stdlib.h>
#include <string.h>
#include <sys/mman.h>
#include <sys/stat.h>
#include <sys/wait.h>
#include <unistd.h>

/* A run that takes longer is ended, and has failed; so have those behind it, which are left out. */
#define SECONDS 20

struct text {
    char *bytes;
    size_t length;
};

/* How a run ended: its exit status, or 256 and the signal that ended it. The errors are what standard error has beside the refusals. */
struct ended {
    int status;
    struct text answers, errors;
};

static pid_t running;
static volatile sig_atomic_t is_late;

static void end_late(int number) {
    (void)number;
    is_late = 1;
    if (running > 0) kill(running, SIGKILL);
}

static void give_up(const char *why) {
    fprintf(stderr, "%s: %s\n", why, strerror(errno));
    exit(2);
}

static void *need(void *room) {
    if (!room) give_up("no memory");
    return room;
}

/* All bytes of a file; no bytes at all where it is not there. */
static struct text read_file(int file) {
    struct text text = {NULL, 0};
    struct stat about;
    if (file < 0) return text;
    if (fstat(file, &about) != 0) give_up("fstat");
    text.bytes = need(malloc(about.st_size + 1));
    while (text.length < (size_t)about.st_size) {
        ssize_t count = pread(file, text.bytes + text.length, about.st_size - text.length, text.length);
        if (count <= 0) give_up("pread");
        text.length += count;
    }
    return text;
}

static struct text read_path(const char *path) {
    int file = open(path, O_RDONLY | O_CLOEXEC);
    struct text text = read_file(file);
    if (file >= 0) close(file);
    return text;
}

static void write_path(const char *path, const void *bytes, size_t length) {
    int file = open(path, O_WRONLY | O_CREAT | O_TRUNC | O_CLOEXEC, 0666);
    if (file < 0) give_up(path);
    if (length && write(file, bytes, length) != (ssize_t)length) give_up(path);
    close(file);
}

/* Whether a line of standard error tells a refused line or file, which the answers tell too: `segywb: PATH:3: E01 ..`, `segywb: PATH: L14 ..`,
   how many more there are, a save without them, or readings with which a refused file can be read. */
static int tells_refusal(const char *line, size_t length) {
    static const char head[] = "segywb: ", saved[] = "saved without ", more[] = ".. and ";
    static const char fits[] = " can be read with --";
    if (memmem(line, length, fits, sizeof fits - 1)) return 1;
    size_t at = sizeof head - 1;
    if (length < at || memcmp(line, head, at) != 0) return 0;
    if (length >= at + sizeof saved - 1 && memcmp(line + at, saved, sizeof saved - 1) == 0) return 1;
    if (length >= at + sizeof more - 1 && memcmp(line + at, more, sizeof more - 1) == 0) return 1;
    for (; at + 6 <= length; at++)
        if (line[at] == ':' && line[at + 1] == ' ')
            return strchr("LSE", line[at + 2]) && line[at + 3] >= '0' && line[at + 3] <= '9' && line[at + 4] >= '0' && line[at + 4] <= '9' && line[at + 5] == ' ';
    return 0;
}

/* Leaves out of a text the lines that tell refusals. */
static void leave_refusals_out(struct text *text) {
    size_t from = 0, kept = 0;
    while (from < text->length) {
        const char *end = memchr(text->bytes + from, '\n', text->length - from);
        size_t length = end ? (size_t)(end - (text->bytes + from)) + 1 : text->length - from;
        if (!tells_refusal(text->bytes + from, length - (end != NULL))) {
            memmove(text->bytes + kept, text->bytes + from, length);
            kept += length;
        }
        from += length;
    }
    text->length = kept;
}

/* Runs the words with these variables, standard input empty, until it ends or its time is over. */
static struct ended run_program(char **words, char **variables) {
    static int answers = -1, errors;
    static posix_spawn_file_actions_t actions;
    struct ended ended;
    int status;
    if (answers < 0) {
        answers = memfd_create("answers", MFD_CLOEXEC);
        errors = memfd_create("errors", MFD_CLOEXEC);
        if (answers < 0 || errors < 0) give_up("memfd_create");
        posix_spawn_file_actions_init(&actions);
        posix_spawn_file_actions_addopen(&actions, 0, "/dev/null", O_RDONLY, 0);
        posix_spawn_file_actions_adddup2(&actions, answers, 1);
        posix_spawn_file_actions_adddup2(&actions, errors, 2);
        signal(SIGALRM, end_late);
    }
    if (ftruncate(answers, 0) || ftruncate(errors, 0)) give_up("ftruncate");
    lseek(answers, 0, SEEK_SET);
    lseek(errors, 0, SEEK_SET);
    if (posix_spawn(&running, words[0], &actions, NULL, words, variables) != 0) give_up(words[0]);
    alarm(SECONDS);
    while (waitpid(running, &status, 0) < 0)
        if (errno != EINTR) give_up("waitpid");
    alarm(0);
    running = 0;
    ended.status = WIFEXITED(status) ? WEXITSTATUS(status) : 256 + WTERMSIG(status);
    ended.answers = read_file(answers);
    ended.errors = read_file(errors);
    leave_refusals_out(&ended.errors);
    return ended;
}

static void forget(struct ended *ended) {
    free(ended->answers.bytes);
    free(ended->errors.bytes);
}

/* Says how a run ended, in one line. */
static void say_end(const struct ended *ended) {
    size_t at;
    const struct text *texts[] = {&ended->answers, &ended->errors};
    printf(ended->status < 256 ? "status %d" : "signal %d", ended->status % 256);
    for (int which = 0; which < 2; which++) {
        printf(which ? ", errors \"" : ", answers \"");
        for (at = 0; at < texts[which]->length && at < 200; at++) {
            unsigned char byte = texts[which]->bytes[at];
            if (byte == '\n') printf("; ");
            else putchar(byte < 32 || byte > 126 ? '?' : byte);
        }
        printf("\"");
    }
}
