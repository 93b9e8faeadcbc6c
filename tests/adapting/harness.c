/* Runs a program on many lists of choices, and prints for each what it took and which cells it made, freed and
   followed. It is linked with an instrumented FILE, which takes values from lists by chance, or with an instrumented
   OUT, which takes the choices that FILE noted, from standard input. */
#include <stdint.h>
#include <stdio.h>
#include <stdlib.h>
#include <string.h>
#include <sys/mman.h>
#include <sys/wait.h>
#include <unistd.h>
#include <sanitizer/lsan_interface.h>

enum { ROOM = 1 << 20, CELLS = 100000, VALUES = 120, LEAKS = 25 };

struct page { size_t choices, events; int lost; char choice[ROOM], event[ROOM]; };
struct cell { uintptr_t hidden; size_t size; int gone, number; };   /* gone: 0 no, 1 freed, 2 not shown, 3 both */

extern int program_main();
#ifndef REPLAYS
#define REPLAYS 0                    /* 1 for OUT */
#endif
static struct page *page;
static struct cell cells[CELLS];
static int made, shown, given, list, line_length;
static char line[ROOM];
static uint64_t chance;
static const uintptr_t mask = 0x5a5a5a5a5a5a5a5aull;

static void event(const char *kind, int number)
{
    char text[40];
    int length = snprintf(text, sizeof text, "%s%d ", kind, number);
    size_t before = strlen(text);
    if (kind[0] == 'D' && page->events >= before && !memcmp(page->event + page->events - before, text, before) &&
        (page->events == before || page->event[page->events - before - 1] == ' '))
        return;
    if (page->events + length < ROOM) {
        memcpy(page->event + page->events, text, length);
        page->events += length;
    }
}

static int find(const void *pointer)
{
    for (int number = made - 1; number >= 0; number--) {
        uintptr_t start = cells[number].hidden ^ mask;
        if ((uintptr_t)pointer >= start && (uintptr_t)pointer < start + cells[number].size) return number;
    }
    return -1;
}

static void finish(const char *how)
{
    alarm(0);
    event(how, 0);
    for (int number = 0; number < made; number++)
        if (cells[number].size && !cells[number].gone) event("left", cells[number].number);
    if (list < LEAKS && !strcmp(how, "returned")) page->lost = __lsan_do_recoverable_leak_check();
    fflush(stdout);
    _exit(0);
}

void *note_deref(const void *pointer)
{
    int number = find(pointer);
    if (pointer == NULL) finish("null");
    if (number < 0) finish("unset");
    if (cells[number].gone == 1 || cells[number].gone == 3) finish("dangling");
    if (cells[number].gone == 0) event("D", cells[number].number);
    return (void *)pointer;
}

/* Follows a pointer that may point to no cell. */
void *note_touch(void *pointer) { return find(pointer) < 0 ? pointer : note_deref(pointer); }

static void *make(size_t size, int hidden)
{
    void *pointer = malloc(size);
    if (made == CELLS) finish("starved");
    memset(pointer, 0xfe, size);
    cells[made].hidden = (uintptr_t)pointer ^ mask;
    cells[made].size = size;
    cells[made].gone = hidden;
    cells[made].number = hidden ? -1 : shown++;
    made++;
    return pointer;
}

void *note_malloc(size_t size)
{
    void *pointer = make(size, 0);
    event("M", shown - 1);
    return pointer;
}

void *note_hidden_malloc(size_t size) { return make(size, 2); }

void *note_calloc(size_t count, size_t size)
{
    void *pointer = note_malloc(count * size);
    memset(pointer, 0, count * size);
    event("D", shown - 1);
    return pointer;
}

void note_free(void *pointer)
{
    int number = find(pointer);
    if (pointer == NULL) return;
    if (number < 0) finish("bad free");
    if (cells[number].gone == 1) finish("double free");
    if (cells[number].gone == 0) event("F", cells[number].number);
    cells[number].gone = cells[number].gone == 2 ? 3 : 1;
    free(pointer);
}

void note_exit(int status) { (void)status; finish("exit"); }
void note_abort(void) { finish("abort"); }
void note_error(void) { finish("error"); }
void note_assert(int truth, int dropped) { if (!truth) finish(dropped ? "dropped" : "assertion"); }

static int value(void)
{
    chance ^= chance << 13; chance ^= chance >> 7; chance ^= chance << 17;
    if (++given > VALUES) finish("starved");
    int kind = (int)(chance >> 33) % 8;
    return kind < 6 ? (int)(chance >> 40) % 2 : (int)(chance >> 40) % 20 - 2;
}

int note_value(void) { return value(); }

int note_truth(void) { return value() & 1; }

int note_choice(int truth)
{
    if (page->choices + 1 < ROOM) page->choice[page->choices++] = truth ? '1' : '0';
    return truth;
}

int next_choice(void)
{
    if (given >= line_length) finish("starved");
    return line[given++] == '1';
}

static void one(void)
{
    char *arguments[] = {"program", "1", "2", "3", NULL};
    chance = 88172645463325252ull + 7919ull * list;
    for (int warm = 0; warm < 20; warm++) { chance ^= chance << 13; chance ^= chance >> 7; chance ^= chance << 17; }
    program_main(1 + list % 3, arguments);
    finish("returned");
}

int main(int count, char **words)
{
    int lists = count > 1 ? atoi(words[1]) : 1000;
    FILE *out = fdopen(dup(1), "w");
    freopen("/dev/null", "w", stdout);
    page = mmap(NULL, sizeof *page, PROT_READ | PROT_WRITE, MAP_SHARED | MAP_ANONYMOUS, -1, 0);
    for (list = 0; list < lists; list++) {
        page->choices = page->events = 0;
        page->lost = 0;
        if (REPLAYS) {
            if (!fgets(line, sizeof line, stdin)) return 1;
            line_length = (int)strcspn(line, "\n");
        }
        pid_t child = fork();
        int status = 0;
        if (child == 0) { alarm(3); one(); }
        waitpid(child, &status, 0);
        page->choice[page->choices] = page->event[page->events] = 0;
        fprintf(out, "%s|%s|%d|%d\n", page->choice, page->event, page->lost, status);
    }
    fclose(out);
    return 0;
}
