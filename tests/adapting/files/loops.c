#include <stdlib.h>
extern int __VERIFIER_nondet_int(void);
struct node { struct node *next; int value; };
struct node *step(struct node *n) { return n->next; }
int some(void) { return __VERIFIER_nondet_int(); }
int main(void) {
    struct node *l = NULL, *p, *q;
    int n = 0;
    while (some()) {
        p = malloc(sizeof *p);
        p->value = n++;
        p->next = l;
        l = p;
    }
    for (p = l, q = NULL; p; q = p, p = p->next) {
        if (p->value == 1)
            continue;
        if (p->value > 7)
            break;
        p->value = q ? q->value : 0;
    }
    for (p = l; p != NULL; p = step(p))
        if (p->value < 0)
            continue;
    if (l) {
        p = l;
        do {
            q = p;
            p = p->next;
            if (some())
                continue;
            q->value += 2;
        } while (p && step(q) == p);
    }
    for (int i = 0, j = n; i < j; i++, j--)
        n = n - 1;
    for (; l; ) {
        p = step(l);
        free(l);
        l = p;
    }
    for (struct node *a = NULL, *b = NULL; a != b; )
        a = b;
    return 0;
}
