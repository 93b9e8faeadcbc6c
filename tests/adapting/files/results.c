#include <stdio.h>
#include <stdlib.h>
extern int __VERIFIER_nondet_int(void);
enum result { OK, FULL, ERROR = 7 };
struct node { struct node *next; float load; };
static const char *name_of(enum result r) {
    switch (r) {
    case OK: return "ok";
    case FULL: return "full";
    default: return "error";
    }
}
static enum result add(struct node *n, float load) {
    if (n->next) return FULL;
    n->next = malloc(sizeof *n);
    if (!n->next) return ERROR;
    n->next->next = NULL;
    n->next->load = load / 2;
    return OK;
}
static float loaded(struct node *n) { float f = 0; for (; n; n = n->next) f += n->load; return f; }
static int code(void) { if (__VERIFIER_nondet_int()) return -1; return 0; }
int main(void) {
    struct node first = { NULL, 2.5f };
    struct node *n = malloc(sizeof(struct node));
    n->next = NULL;
    n->load = first.load;
    puts(name_of(add(n, 3)));
    if (add(n, 4) != FULL) return 1;
    if (loaded(n) > 3.0 && code() < 0) { free(n->next); n->next = NULL; }
    free(n->next);
    free(n);
    return first.next != NULL;
}
