/* pairs as one: a copy of a struct follows its two cells in turn */
#include <stdlib.h>
extern int __VERIFIER_nondet_int(void);
struct pair { struct node *a, *b; int n; };
struct node { struct pair pair; struct node *next; int value; };
static struct pair both;
static void show(struct pair p, int k) { if (p.a && p.a->value == k) p.a->value = p.n; }
int main(void) {
    struct node *x = malloc(sizeof *x), *y = malloc(sizeof(struct node));
    struct pair p = { x, y, 2 }, q = { .b = x }, r;
    x->value = 1; x->next = y;
    x->pair = p;
    y->value = 3; y->next = NULL;
    y->pair = q;
    r = x->pair;
    r.a = r.b;
    both = r;
    show(both, 3);
    show(y->pair, 1);
    if (__VERIFIER_nondet_int()) {
        struct node *gone = x->next;
        *x = *x->next;
        free(gone);
        y = NULL;
        both.a = both.b = NULL;
    }
    if (y) {
        *y = *x;
        y->next = both.a == y ? NULL : y;
    }
    if (q.b == x && q.a == NULL && q.n == 0)
        free(x);
    free(y);
    both.a = both.b = NULL;
    return 0;
}
