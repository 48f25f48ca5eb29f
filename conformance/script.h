/* A rank's commands of a script (docs/use/script.md), as they stand in a file that the launcher has found to be a script. */
#include <stdio.h>
#include <stdlib.h>
#include <string.h>

enum word { ISEND, ISSEND, IRECV, WAIT, TEST, PROBE, AWAIT, CANCEL, MPROBE, MRECV, WORDS };

static const struct { const char *name; int arguments; } words_of[WORDS] = {
    { "isend", 5 }, { "issend", 5 }, { "irecv", 5 }, { "wait", 1 }, { "test", 1 },
    { "probe", 3 }, { "await", 3 }, { "cancel", 1 }, { "mprobe", 4 }, { "mrecv", 3 },
};

#define CONTEXTS 256
#define ANY (-1L)

struct command {
    long line;
    enum word word;
    long name, handle;         /* of a request, of a matched probe */
    long peer, tag, context;   /* ANY for any */
    long capacity, length;
    unsigned char *body;
};

struct script {
    struct command *commands;  /* of one rank */
    long count, room;
    int uses[CONTEXTS];        /* the contexts that some rank uses */
    long longest;              /* the longest body of all ranks: so much may be written behind a receive's capacity */
};

static void refuse(const char *why, long line)
{
    fprintf(stderr, "conform: line %ld: %s\n", line, why);
    exit(3);
}

static void *memory(void *old, size_t size)
{
    void *made = realloc(old, size ? size : 1);
    if (!made) refuse("want of memory", 0);
    return made;
}

static long pick(const char *word) { return strcmp(word, "any") ? atol(word) : ANY; }

static int digit(char c) { return c <= '9' ? c - '0' : c - 'a' + 10; }

static void read_body(struct command *c, const char *word)
{
    long k;
    c->length = word[0] == 'g' ? atol(word + 1) : (long) strlen(word + 1) / 2;
    c->body = memory(NULL, c->length);
    for (k = 0; k < c->length; k++)
        c->body[k] = word[0] == 'g' ? (31 * k + 7) % 251 : digit(word[1 + 2 * k]) * 16 + digit(word[2 + 2 * k]);
}

/* Source, tag and context of a receive or a look. */
static void read_pattern(struct command *c, char **argument)
{
    c->peer = pick(argument[0]);
    c->tag = pick(argument[1]);
    c->context = atol(argument[2]);
}

static void read_arguments(struct command *c, char **argument)
{
    c->name = atol(argument[0]);
    switch (c->word) {
    case ISEND: case ISSEND:
        read_pattern(c, argument + 1);
        read_body(c, argument[4]);
        break;
    case IRECV:
        read_pattern(c, argument + 1);
        c->capacity = atol(argument[4]);
        break;
    case PROBE: case AWAIT:
        read_pattern(c, argument);
        break;
    case MPROBE:
        c->handle = c->name;
        read_pattern(c, argument + 1);
        break;
    case MRECV:
        c->handle = atol(argument[1]);
        c->capacity = atol(argument[2]);
        break;
    default:
        break;
    }
}

/* Splits a line at its spaces; how many words there are. */
static int split(char *line, char **word, int most)
{
    int count = 0;
    while (line && count < most) {
        word[count++] = line;
        line = strchr(line, ' ');
        if (line) *line++ = 0;
    }
    return count;
}

static void read_line(struct script *s, char *text, long line, int rank)
{
    char *word[8];
    struct command c = { 0 };
    int at = 0, count = split(text, word, 8);
    while (count > 1 && at < WORDS && strcmp(words_of[at].name, word[1])) at++;
    if (count < 2 || at == WORDS || count - 2 != words_of[at].arguments) refuse("no command", line);
    c.line = line;
    c.word = (enum word) at;
    read_arguments(&c, word + 2);
    if (at != WAIT && at != TEST && at != CANCEL && at != MRECV) s->uses[c.context % CONTEXTS] = 1;
    if (c.length > s->longest) s->longest = c.length;
    if (atol(word[0]) != rank) {
        free(c.body);
        return;
    }
    if (s->count == s->room) {
        s->room = 2 * s->room + 64;
        s->commands = memory(s->commands, s->room * sizeof *s->commands);
    }
    s->commands[s->count++] = c;
}

static struct script read_script(const char *path, int rank, int ranks)
{
    struct script s = { 0 };
    char *text = NULL;
    size_t room = 0;
    ssize_t length;
    long line = 0;
    FILE *file = fopen(path, "rb");
    if (!file) refuse("the script can't be read", 0);
    while ((length = getline(&text, &room, file)) >= 0) {
        if (length && text[length - 1] == '\n') text[length - 1] = 0;
        if (++line > 1) read_line(&s, text, line, rank);
        else if (strncmp(text, "ranks ", 6) || atol(text + 6) != ranks) {
            fprintf(stderr, "conform: %d ranks were started, and the script has %s: is mpiexec of this library?\n", ranks, text + 6);
            exit(3);
        }
    }
    free(text);
    fclose(file);
    return s;
}
