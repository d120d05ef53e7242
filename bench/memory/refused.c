/* Refuses each allocation once of the program that it is preloaded into. Before each call of malloc and realloc the program is
   forked: the child gets none and goes on to its end, with its own output, and then the parent goes on as if nothing had
   been. Of more than 5,000 calls every EACH-th is refused after these. WHOLE names what the program prints where nothing is
   refused, STATUS is its status then, and TRIED names a file for the outputs of the children.

   As is due, a child ends with status WANTING and has printed a front of that; or with 5 and has printed nothing, since a
   file that cannot be opened for want of memory is not read; or it ends as if nothing had been refused; or, where MEMORY is
   set, with that line in the place of one line, behind which a front stands of what follows it. A line on standard error
   says at the end how many children ended in each of these ways, and how many in none. */
#define _GNU_SOURCE
#include <fcntl.h>
#include <stdio.h>
#include <stdlib.h>
#include <string.h>
#include <sys/wait.h>
#include <unistd.h>

extern void *__libc_malloc(size_t);
extern void *__libc_realloc(void *, size_t);

enum { LONGEST = 1 << 24, SECONDS = 60, MOST_SAID = 20, FIRST = 5000 };

static char whole[LONGEST], tried[LONGEST];
static size_t whole_size;
static const char *tried_name, *memory;
static int whole_status, wanting, each, is_child, is_ready, is_judging;
static unsigned long calls, refused, wanted, unread, unmoved, said, wrong;

static size_t contents(const char *name, char *into) {
    int file = open(name, O_RDONLY);
    size_t size = 0;
    ssize_t more;
    while (file >= 0 && size < LONGEST && (more = read(file, into + size, LONGEST - size)) > 0) size += more;
    if (file >= 0) close(file);
    return size;
}

static int number_in(const char *name, int otherwise) {
    const char *text = getenv(name);
    return text ? atoi(text) : otherwise;
}

__attribute__((constructor)) static void begin(void) {
    const char *name = getenv("WHOLE");
    tried_name = getenv("TRIED");
    memory = getenv("MEMORY");
    wanting = number_in("WANTING", 7);
    whole_status = number_in("STATUS", 0);
    each = number_in("EACH", 1);
    if (!name || !tried_name) return;
    whole_size = contents(name, whole);
    is_ready = 1;
}

/* The child has files of its own in the place of standard input and output, as far as the parent has come. */
static void part_files(void) {
    char path[64];
    off_t at = lseek(0, 0, SEEK_CUR), size = lseek(1, 0, SEEK_CUR);
    int in = open("/proc/self/fd/0", O_RDONLY), out = open(tried_name, O_RDWR | O_CREAT | O_TRUNC, 0600);
    if (in >= 0 && at >= 0) {
        lseek(in, at, SEEK_SET);
        dup2(in, 0);
    }
    snprintf(path, sizeof path, "/proc/self/fd/%d", 1);
    if (contents(path, tried) < (size_t)size || write(out, tried, size) != size) _exit(127);
    dup2(out, 1);
}

static int is_front(const char *text, size_t size, const char *of, size_t of_size) {
    return size <= of_size && memcmp(text, of, size) == 0;
}

/* One line is another one, and behind it a front stands. */
static int is_said(size_t size) {
    size_t at = 0, line, length = strlen(memory);
    char *end;
    while (at < size && at < whole_size && tried[at] == whole[at]) at++;
    for (line = at; line > 0 && tried[line - 1] != '\n'; line--) {}
    if (size - line <= length || memcmp(tried + line, memory, length) != 0 || tried[line + length] != '\n') return 0;
    end = memchr(whole + line, '\n', whole_size - line);
    line += length + 1;
    return end && is_front(tried + line, size - line, end + 1, whole + whole_size - end - 1);
}

static void judge(int status) {
    size_t size = contents(tried_name, tried);
    int ended = WIFEXITED(status) ? WEXITSTATUS(status) : -1, front = is_front(tried, size, whole, whole_size);
    if (ended == wanting && front) {
        wanted++;
    } else if (ended == 5 && size == 0) {
        unread++;
    } else if (ended == whole_status && front && size == whole_size) {
        unmoved++;
    } else if (memory && ended == whole_status && is_said(size)) {
        said++;
    } else if (++wrong <= MOST_SAID) {
        dprintf(2, "allocation %lu refused: status %d and %zu bytes that are not due\n", calls, ended, size);
    }
}

/* Whether this allocation is refused here. */
static int is_refused(void) {
    pid_t child;
    int status = 0;
    if (!is_ready || is_child || is_judging) return 0;
    if (++calls > FIRST && calls % each != 0) return 0;
    is_judging = 1;
    refused++;
    child = fork();
    if (child == 0) {
        is_child = 1;
        alarm(SECONDS);
        part_files();
        return 1;
    }
    waitpid(child, &status, 0);
    judge(child < 0 ? -1 : status);
    is_judging = 0;
    return 0;
}

void *malloc(size_t size) {
    return is_refused() ? NULL : __libc_malloc(size);
}

void *realloc(void *old, size_t size) {
    return is_refused() ? NULL : __libc_realloc(old, size);
}

__attribute__((destructor)) static void end(void) {
    if (!is_ready || is_child) return;
    is_judging = 1;
    dprintf(2, "%lu allocations, %lu of them refused: %lu ended with %d and a front, %lu with 5 and nothing, %lu as before, ",
            calls, refused, wanted, wanting, unread, unmoved);
    if (memory) dprintf(2, "%lu said '%s', ", said, memory);
    dprintf(2, "%lu not as is due\n", wrong);
}
