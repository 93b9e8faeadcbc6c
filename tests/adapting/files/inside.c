#include <stdlib.h>
extern int __VERIFIER_nondet_int(void);
struct links { struct item *next, *prev; };
struct point { int x, y; };
struct item { struct links all; struct point at; struct { struct item *twin; }; int kind; };
static struct item *add(struct item *next) {
    struct item *i = malloc(sizeof *i);
    i->all.next = next;
    i->all.prev = NULL;
    i->twin = i;
    i->at.x = 20;
    i->at.y = i->at.x + 1;
    i->kind = 2;
    if (next)
        next->all.prev = i;
    return i;
}
int main(void) {
    struct item *l = NULL;
    while (__VERIFIER_nondet_int())
        l = add(l);
    if (l && l->at.y > 3 && l->twin->kind == 2) {
        (*l).kind = 3;
        (*(*l).twin).at.x = 1;
    }
    while (l) {
        struct item *t = l;
        l = l->all.next;
        if (l)
            l->all.prev = NULL;
        free(t);
    }
    return 0;
}
