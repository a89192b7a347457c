/* Changes texts a little and gives each to the built program; checks/many_mutations.py builds and calls it.
 *
 *     many_mutations PROGRAM KIND PAIRS CASES SEED
 *
 * In the folder that it runs in the files text.0, text.1, .. are changed, and spec.0, spec.1, .. are their
 * specifications. KIND is spec (`spec`), certificate (`verify`) or object (`rank` and `chance`). A case is wrong
 * where the program crashes, takes 10 seconds of processor time, ends with a status that the command doesn't have, or
 * writes what isn't known; and where the canonical form of a specification doesn't read back as itself. Each changed
 * certificate that is found valid goes into the file `valid`, as its number, its length and its bytes. The counts are
 * the last line.
 */
#define _GNU_SOURCE
#include <errno.h>
#include <fcntl.h>
#include <stdint.h>
#include <stdio.h>
#include <stdlib.h>
#include <string.h>
#include <sys/resource.h>
#include <sys/wait.h>
#include <unistd.h>

enum { ROOM = 1 << 17, SECONDS = 10 };

struct text {
    size_t length;
    unsigned char bytes[ROOM];
};

static const char marks[] = "0123456789abcEZ.#()[]{}<>/ \n+*=:";
static const char *const tokens[] = {"E",  "Z",   "Seq", "Set", "Cyc", "(",  ")",   "+",  "*",          "=",         ">=", "<=",
                                     "2",  "64",  "65",  "A",   "B",   ":a", "\n",  " ",  "#",          "labelled\n", "0.", "1.",
                                     "[]", "end", "0/1", "1/1", "\r",  "\t", "cells", "text ", "unlabelled\n", "18446744073709551616"};
static uint64_t dice;
static char *no_variables[] = {NULL};
static const struct rlimit limit = {SECONDS, SECONDS + 1};

static uint64_t roll(uint64_t below) {
    dice ^= dice >> 12;
    dice ^= dice << 25;
    dice ^= dice >> 27;
    return below ? (dice * 2685821657736338717u >> 11) % below : 0;
}

static void load(struct text *text, const char *kind, unsigned long number) {
    char name[40];
    snprintf(name, sizeof name, "%s.%lu", kind, number);
    int file = open(name, O_RDONLY);
    ssize_t got = file < 0 ? -1 : read(file, text->bytes, ROOM / 2);
    if (got < 0) {
        perror(name);
        exit(2);
    }
    text->length = (size_t)got;
    close(file);
}

static void store(const char *name, const unsigned char *bytes, size_t length) {
    int file = open(name, O_WRONLY | O_CREAT | O_TRUNC, 0644);
    if (file < 0 || write(file, bytes, length) != (ssize_t)length) {
        perror(name);
        exit(2);
    }
    close(file);
}

/* Puts some bytes in the place of others. */
static void put(struct text *text, size_t at, size_t old, const void *bytes, size_t length) {
    if (at > text->length || text->length - at < old || text->length - old + length > ROOM / 2) return;
    memmove(text->bytes + at + length, text->bytes + at + old, text->length - at - old);
    memmove(text->bytes + at, bytes, length);
    text->length = text->length - old + length;
}

static void change_byte(struct text *text) {
    unsigned char byte = roll(5) ? (unsigned char)marks[roll(sizeof marks - 1)] : (unsigned char)roll(256);
    size_t at = roll(text->length + 1);
    put(text, at, at < text->length ? roll(2) : 0, &byte, roll(3) ? 1 : 0);
}

static void change_token(struct text *text) {
    const char *token = tokens[roll(sizeof tokens / sizeof *tokens)];
    size_t at = roll(text->length + 1), old = roll(3);
    put(text, at, text->length - at < old ? 0 : old, token, strlen(token));
}

static void change_number(struct text *text) {
    size_t at = roll(text->length + 1), end;
    while (at < text->length && (text->bytes[at] < '0' || text->bytes[at] > '9')) at++;
    while (at > 0 && text->bytes[at - 1] >= '0' && text->bytes[at - 1] <= '9') at--;
    for (end = at; end < text->length && text->bytes[end] >= '0' && text->bytes[end] <= '9'; end++) {}
    if (end == at || end - at > 19) return;
    char digits[32] = {0};
    memcpy(digits, text->bytes + at, end - at);
    uint64_t value = strtoull(digits, NULL, 10);
    const uint64_t others[] = {value + 1,        value - (value > 0), value * 2,         value * 2 + 1, value / 2, 0,
                               1,                60,                  61,                64,            65,        1000000,
                               1000001,          UINT64_C(1) << 32,   UINT64_C(1) << 48, UINT64_MAX,    roll(100), value ^ UINT64_C(1) << roll(64)};
    int length = snprintf(digits, sizeof digits, "%llu", (unsigned long long)others[roll(sizeof others / sizeof *others)]);
    put(text, at, end - at, digits, (size_t)length);
}

/* Where the line begins that a place lies in, and where the next one does. */
static size_t line_at(const struct text *text, size_t at, size_t *end) {
    while (at > 0 && text->bytes[at - 1] != '\n') at--;
    for (*end = at; *end < text->length && text->bytes[*end] != '\n'; (*end)++) {}
    *end += *end < text->length;
    return at;
}

static void change_line(struct text *text, const struct text *other) {
    static unsigned char line[ROOM];
    size_t end, from = line_at(text, roll(text->length + 1), &end), other_end;
    size_t to = line_at(text, roll(text->length + 1), &other_end);
    switch (roll(5)) {
    case 0:
        text->length = roll(text->length + 1);
        return;
    case 1:
        put(text, from, end - from, "", 0);
        return;
    case 2:
        memcpy(line, text->bytes + from, end - from);
        put(text, to, 0, line, end - from);
        return;
    case 3:
        memcpy(line, text->bytes + from, end - from);
        put(text, from, end - from, "", 0);
        if (to > text->length) to = text->length;
        put(text, to, 0, line, end - from);
        return;
    default:
        to = line_at(other, roll(other->length + 1), &other_end);
        put(text, from, roll(2) ? end - from : 0, other->bytes + to, other_end - to);
    }
}

static void change(struct text *text, const struct text *other, int certificate) {
    for (uint64_t left = 1 + roll(3) * roll(2); left > 0; left--) {
        switch (roll(certificate ? 6 : 5)) {
        case 0: change_byte(text); break;
        case 1: change_number(text); break;
        case 2: change_line(text, other); break;
        case 3: certificate ? change_byte(text) : change_token(text); break;
        case 4: change_token(text); break;
        default: change_number(text);
        }
    }
}

struct answer {
    int ended, status;
    double seconds;
    size_t length;
    unsigned char wrote[ROOM];
};

static void call(struct answer *answer, char *const words[]) {
    int pipes[2];
    struct rusage used;
    if (pipe(pipes) != 0) exit(2);
    pid_t child = vfork();
    if (child == 0) {
        dup2(pipes[1], 1);
        dup2(pipes[1], 2);
        close(pipes[0]);
        close(pipes[1]);
        setrlimit(RLIMIT_CPU, &limit);
        execve(words[0], words, no_variables);
        _exit(127);
    }
    close(pipes[1]);
    answer->length = 0;
    for (;;) {
        static unsigned char rest[4096];
        int full = answer->length == ROOM;
        ssize_t got = read(pipes[0], full ? rest : answer->wrote + answer->length, full ? sizeof rest : ROOM - answer->length);
        if (got < 0 && errno == EINTR) continue;
        if (got <= 0) break;
        if (!full) answer->length += (size_t)got;
    }
    close(pipes[0]);
    int ended;
    if (child < 0 || wait4(child, &ended, 0, &used) != child) exit(2);
    answer->ended = WIFEXITED(ended);
    answer->status = answer->ended ? WEXITSTATUS(ended) : -WTERMSIG(ended);
    answer->seconds = (double)(used.ru_utime.tv_sec + used.ru_stime.tv_sec) + 1e-6 * (double)(used.ru_utime.tv_usec + used.ru_stime.tv_usec);
}

static int begins(const struct answer *answer, const char *word) {
    size_t length = strlen(word);
    return answer->length >= length && memcmp(answer->wrote, word, length) == 0;
}

static uint64_t hash_of(const struct text *text, uint64_t number) {
    uint64_t hash = 14695981039346656037u ^ number;
    for (size_t i = 0; i < text->length; i++) hash = (hash ^ text->bytes[i]) * 1099511628211u;
    return hash ? hash : 1;
}

/* Whether a changed certificate is new; keeps some million of them. */
static int is_new(uint64_t hash) {
    static uint64_t seen[1 << 21];
    for (size_t at = hash % (1 << 21), tries = 0; tries < 64; at = (at + 1) % (1 << 21), tries++) {
        if (seen[at] == hash) return 0;
        if (seen[at] == 0) {
            seen[at] = hash;
            return 1;
        }
    }
    return 1;
}

int main(int count, char **words) {
    if (count != 6) return 2;
    static struct text text, other, again;
    static struct answer answer, second;
    const char *kind = words[2];
    int certificate = kind[0] == 'c', object = kind[0] == 'o';
    unsigned long pairs = strtoul(words[3], NULL, 10), cases = strtoul(words[4], NULL, 10), wrong = 0, valid = 0, calls = 0;
    unsigned long statuses[16] = {0};
    double longest = 0;
    dice = strtoull(words[5], NULL, 10) * 0x9E3779B97F4A7C15u | 1;
    FILE *found = fopen("valid", "w");
    for (unsigned long done = 0; done < cases; done++) {
        unsigned long i = roll(pairs), j = roll(pairs);
        char spec[40];
        snprintf(spec, sizeof spec, "spec.%lu", i);
        load(&text, "text", i);
        load(&other, "text", j);
        change(&text, &other, certificate);
        store("mutant", text.bytes, text.length);
        int chance = object && roll(2);
        char *const spec_words[] = {words[1], "spec", "mutant", NULL};
        char *const verify_words[] = {words[1], roll(16) ? "verify" : "migrate", spec, "mutant", NULL};
        char *const rank_words[] = {words[1], "rank", spec, "mutant", NULL};
        char *const chance_words[] = {words[1], "chance", spec, "1/8", "mutant", NULL};
        call(&answer, certificate ? verify_words : chance ? chance_words : object ? rank_words : spec_words);
        calls++;
        if (answer.seconds > longest) longest = answer.seconds;
        int status = answer.status, known;
        if (certificate)
            known = status == 0 ? begins(&answer, "end valid") || begins(&answer, "boltzmann 2\n")
                                : status == 11 && (begins(&answer, "invalid line ") || begins(&answer, "refused certificate "));
        else if (object)
            known = status == 0 ? begins(&answer, "rank ") || begins(&answer, "chance ")
                                : (status == 14 || status == 15) && begins(&answer, "refused ");
        else
            known = status == 0 ? begins(&answer, "unlabelled\n") || begins(&answer, "labelled\n") : status == 3 && begins(&answer, "refused ");
        if (!answer.ended || !known || answer.seconds >= SECONDS) {
            printf("wrong: %s status %d in %.2f s, %zu bytes written, case %lu\n", kind, status, answer.seconds, answer.length, done);
            char name[60];
            snprintf(name, sizeof name, "wrong.%lu", ++wrong);
            store(name, text.bytes, text.length);
            continue;
        }
        statuses[status & 15]++;
        if (status == 0 && certificate && is_new(hash_of(&text, i))) {
            valid++;
            fprintf(found, "%lu %zu\n", i, text.length);
            fwrite(text.bytes, 1, text.length, found);
        }
        if (status == 0 && !certificate && !object) {
            size_t length = answer.length;
            while (length > 1 && answer.wrote[--length - 1] != '\n') {}
            memcpy(again.bytes, answer.wrote, length < ROOM / 2 ? length : 0);
            store("mutant", again.bytes, length < ROOM / 2 ? length : 0);
            call(&second, spec_words);
            calls++;
            if (second.status != 0 || second.length != answer.length || memcmp(second.wrote, answer.wrote, answer.length) != 0) {
                printf("wrong: the canonical form doesn't read back, case %lu\n", done);
                char name[60];
                snprintf(name, sizeof name, "wrong.%lu", ++wrong);
                store(name, text.bytes, text.length);
            }
        }
    }
    fclose(found);
    printf("%lu %lu %lu %lu %.3f", cases, calls, wrong, valid, longest);
    for (int status = 0; status < 16; status++) printf(" %lu", statuses[status]);
    printf("\n");
    return 0;
}
