#include <stdlib.h>
extern int __VERIFIER_nondet_int(void);
struct ring { struct ring *next; int seen; };
static struct ring *next(struct ring *r) { return r->next; }
int main(void) {
    struct ring *start = malloc(sizeof *start), *at;
    int n = 0;
    start->next = start; start->seen = 0;
    while (n < 3 && __VERIFIER_nondet_int()) {
        at = malloc(sizeof *at);
        at->next = start->next; at->seen = n++;
        start->next = at;
    }
    at = start;
    do {
        at->seen++;
        if (at->seen == 2)
            continue;
        at->seen = 0;
    } while ((at = next(at)) != start);
    do at = at->next; while (at->seen > 5 && at != start);
    do { struct ring *gone = start->next; if (gone == start) break; start->next = gone->next; free(gone); } while (1);
    free(start);
    return 0;
}
