/* A checker of logs for comparison alone: it goes by chains as `check` does, but takes each `i` line as it is, and has no
 * proof. Reads the log that its word names; prints how many lines it has and how many of them are inputs, and ends with 1 at
 * the first line that does not follow. */
#include <stdio.h>
#include <stdlib.h>
#include <string.h>

typedef struct { int *lits; int size; } Clause;
static Clause *clauses;
static long room;
static char *at, *end;
static int *mark;  /* by literal: the stamp of the step in which it stands in the clause so far */
static long marks;
static int *now, size, now_room;
static int stamp;

static void *grown(void *old, long bytes) {
    void *made = realloc(old, bytes);
    if (!made) { fputs("no memory\n", stderr); exit(7); }
    return made;
}

static void fail(long line, const char *why) { printf("no: line %ld, %s\n", line, why); exit(1); }

static int spot(int lit) { return lit < 0 ? -2 * lit + 1 : 2 * lit; }

static void need_marks(int lit) {
    long place = spot(lit) | 1;
    if (place < marks) return;
    long more = 2 * place + 2;
    mark = grown(mark, more * sizeof *mark);
    memset(mark + marks, 0, (more - marks) * sizeof *mark);
    marks = more;
}

/* The next number of the line; 0 ends a list. */
static long number(long line) {
    while (at < end && *at == ' ') at++;
    int minus = at < end && *at == '-';
    if (minus) at++;
    if (at == end || *at < '0' || *at > '9') fail(line, "no number");
    long value = 0;
    while (at < end && *at >= '0' && *at <= '9') value = 10 * value + (*at++ - '0');
    return minus ? -value : value;
}

static void need_clause(long id) {
    if (id < room) return;
    long more = 2 * id + 2;
    clauses = grown(clauses, more * sizeof *clauses);
    memset(clauses + room, 0, (more - room) * sizeof *clauses);
    room = more;
}

static Clause read_clause(long line) {
    static int *lits, had;
    int count = 0;
    for (int lit; (lit = (int)number(line)) != 0; ) {
        if (count == had) { had = 2 * had + 16; lits = grown(lits, had * sizeof *lits); }
        need_marks(lit);
        lits[count++] = lit;
    }
    Clause made = { grown(NULL, (count + 1) * sizeof(int)), count };
    memcpy(made.lits, lits, count * sizeof(int));
    return made;
}

static void put(int lit) {
    if (mark[spot(lit)] == stamp) return;
    mark[spot(lit)] = stamp;
    if (size == now_room) { now_room = 2 * now_room + 16; now = grown(now, now_room * sizeof *now); }
    now[size++] = lit;
}

/* Resolves the clause so far with another; exactly one literal may be negated there. */
static void resolve(Clause with, long line) {
    int pivot = 0;
    for (int i = 0; i < with.size; i++)
        if (mark[spot(-with.lits[i])] == stamp) { if (pivot) fail(line, "two pivots"); pivot = with.lits[i]; }
    if (!pivot) fail(line, "no pivot");
    mark[spot(-pivot)] = 0;
    for (int i = 0; i < with.size; i++)
        if (with.lits[i] != pivot) put(with.lits[i]);
}

static Clause *held(long id, long line) {
    if (id <= 0 || id >= room || !clauses[id].lits) fail(line, "unknown number");
    return &clauses[id];
}

static void addition(long line) {
    long id = number(line);
    Clause made = read_clause(line);
    stamp++;
    size = 0;
    int steps = 0;
    for (long from; (from = number(line)) != 0; steps++) {
        Clause *with = held(from, line);
        if (steps == 0) for (int i = 0; i < with->size; i++) put(with->lits[i]);
        else resolve(*with, line);
    }
    if (!steps) fail(line, "an empty chain");
    int so_far = stamp++;
    for (int i = 0; i < made.size; i++) if (mark[spot(made.lits[i])] == so_far) mark[spot(made.lits[i])] = stamp;
    for (int i = 0; i < size; i++) if (mark[spot(now[i])] == so_far) fail(line, "not covered");
    need_clause(id);
    if (clauses[id].lits) fail(line, "used number");
    clauses[id] = made;
}

int main(int count, char **words) {
    FILE *file = count == 2 ? fopen(words[1], "rb") : NULL;
    if (!file) { fputs("usage: checker LOG\n", stderr); return 3; }
    fseek(file, 0, SEEK_END);
    long bytes = ftell(file);
    rewind(file);
    char *text = grown(NULL, bytes + 1);
    if (fread(text, 1, bytes, file) != (size_t)bytes) return 5;
    at = text;
    end = text + bytes;
    long line = 0, inputs = 0;
    for (; at < end; at++) {
        line++;
        char kind = *at++;
        if (kind == 'i') {
            long id = number(line);
            Clause made = read_clause(line);
            need_clause(id);
            clauses[id] = made;
            inputs++;
        } else if (kind == 'a') addition(line);
        else if (kind == 'd') { Clause *gone = held(number(line), line); free(gone->lits); gone->lits = NULL; }
        else if (kind == 'q') { for (long i = 0; i < room; i++) { free(clauses[i].lits); clauses[i].lits = NULL; } }
        while (at < end && *at != '\n') at++;
    }
    printf("%ld lines, %ld inputs\n", line, inputs);
    return 0;
}
