/* Runs a program once for each number from FIRST to LAST, and compares how each run ends with the ways in which it may end.
   usage: many_runs NAME FIRST LAST [step N] [make PATH PART] [saves PATH] [may KIND STATUS ANSWERS ERRORS SAVED].. \
              -- [VARIABLE=VALUE].. PROGRAM [WORD]..
   With `step` the numbers are FIRST, FIRST + N, .. up to LAST.
   In PARTs and behind `--`, `%` stands for the number. ANSWERS, ERRORS and SAVED are PARTs: `-` is nothing (for SAVED: there is no
   such file), `=TEXT` the text and a line feed, `FILE` the bytes of a file, `FILE:N` its first N bytes. `make` writes a PART to PATH
   before each run; `saves` names the file that is SAVED, which is removed before.
   Prints the first runs that ended otherwise, and how many did; then `KIND NUMBER` for each KIND, in order, to the file `kinds`. */
#include "run_program.h"

#define MOST 4000

struct end {
    const char *kind, *status, *answers, *errors, *saved;
    long met;
};

static struct end ends[MOST];
static int end_count;
extern char **environ;

/* The text with the number in place of each `%`. */
static char *numbered(const char *text, long number) {
    char *whole = need(malloc(strlen(text) * 20 + 1)), *at = whole;
    for (; *text; text++) {
        if (*text == '%') at += sprintf(at, "%ld", number);
        else *at++ = *text;
    }
    *at = 0;
    return whole;
}

/* The bytes of a file that stays as it is, read once. */
static struct text kept_file(const char *path) {
    static struct { char *path; struct text text; } kept[MOST];
    static int count;
    int at;
    for (at = 0; at < count; at++)
        if (!strcmp(kept[at].path, path)) return kept[at].text;
    if (count == MOST) give_up("too many files");
    kept[count].path = need(strdup(path));
    kept[count].text = read_path(path);
    if (!kept[count].text.bytes) give_up(path);
    return kept[count++].text;
}

/* The bytes of a part; `room` holds them where they are a text of their own. */
static struct text part(const char *spec, long number, char **room) {
    char *colon;
    struct text text = {"", 0};
    *room = numbered(spec, number);
    if (!strcmp(*room, "-")) return text;
    if (**room == '=') {
        text.length = strlen(*room);
        text.bytes = *room + 1;
        (*room)[text.length] = '\n';
        return text;
    }
    colon = strrchr(*room, ':');
    if (!colon) return kept_file(*room);
    *colon = 0;
    text = kept_file(*room);
    if ((size_t)atol(colon + 1) > text.length) give_up("a part beyond its file");
    text.length = atol(colon + 1);
    return text;
}

static int is_part(struct text text, const char *spec, long number) {
    char *room;
    struct text wanted = part(spec, number, &room);
    int same = text.length == wanted.length && !memcmp(text.length ? text.bytes : "", wanted.bytes, wanted.length);
    free(room);
    return same;
}

static int is_end(const struct end *end, const struct ended *ended, struct text saved, long number) {
    if (atoi(end->status) != ended->status) return 0;
    if (!strcmp(end->saved, "-") ? saved.bytes != NULL : !saved.bytes || !is_part(saved, end->saved, number)) return 0;
    return is_part(ended->answers, end->answers, number) && is_part(ended->errors, end->errors, number);
}

/* One run; whether it ended as it may. */
static int run(const char *name, long number, char **behind, const char *make, const char *made, const char *saves) {
    char *words[MOST] = {NULL}, *variables[MOST];
    int count = 0, at, met = -1;
    struct ended ended;
    struct text saved = {NULL, 0};
    if (make) {
        char *room;
        struct text text = part(made, number, &room);
        write_path(make, text.bytes, text.length);
        free(room);
    }
    if (saves) unlink(saves);
    while (*behind && strchr(*behind, '=')) variables[count++] = numbered(*behind++, number);
    for (at = 0; environ[at] && count < MOST - 1; at++) variables[count++] = need(strdup(environ[at]));
    variables[count] = NULL;
    for (at = 0; behind[at] && at < MOST - 1; at++) words[at] = numbered(behind[at], number);
    ended = run_program(words, variables);
    if (saves) saved = read_path(saves);
    for (at = 0; at < end_count && met < 0; at++)
        if (is_end(&ends[at], &ended, saved, number)) met = at;
    if (met >= 0) ends[met].met++;
    else {
        static int told;
        if (told++ < 5) {
            printf("FAILED %s %ld: ", name, number);
            say_end(&ended);
            if (saved.bytes) printf(", saved %zu bytes\n", saved.length);
            else printf(", nothing saved\n");
        }
    }
    for (at = 0; variables[at]; at++) free(variables[at]);
    for (at = 0; words[at]; at++) free(words[at]);
    free(saved.bytes);
    forget(&ended);
    return met >= 0;
}

int main(int count, char **words) {
    const char *make = NULL, *made = NULL, *saves = NULL;
    int at;
    long number, step = 1, failed = 0;
    FILE *kinds;
    if (count < 5) give_up("usage: many_runs NAME FIRST LAST .. -- PROGRAM WORD..");
    for (at = 4; at < count && strcmp(words[at], "--"); ) {
        if (!strcmp(words[at], "step") && at + 1 < count) step = atol(words[at + 1]), at += 2;
        else if (!strcmp(words[at], "make") && at + 2 < count) make = words[at + 1], made = words[at + 2], at += 3;
        else if (!strcmp(words[at], "saves") && at + 1 < count) saves = words[at + 1], at += 2;
        else if (!strcmp(words[at], "may") && at + 5 < count && end_count < MOST) {
            struct end end = {words[at + 1], words[at + 2], words[at + 3], words[at + 4], words[at + 5], 0};
            ends[end_count++] = end;
            at += 6;
        } else give_up(words[at]);
    }
    if (at + 1 >= count) give_up("no program");
    if (step < 1) give_up("step");
    for (number = atol(words[2]); number <= atol(words[3]) && !is_late; number += step)
        failed += !run(words[1], number, words + at + 1, make, made, saves);
    if (failed) printf("FAILED %s: %ld of the runs %s to %s%s\n", words[1], failed, words[2], words[3], is_late ? ", the last for want of an end" : "");
    kinds = fopen("kinds", "w");
    if (!kinds) give_up("kinds");
    for (at = 0; at < end_count; at++) fprintf(kinds, "%s %ld\n", ends[at].kind, ends[at].met);
    fclose(kinds);
    return failed != 0;
}
