#include <stdlib.h>
extern int __VERIFIER_nondet_int(void);
struct node { struct node *a, *b; int kind; };
static struct node *pick(struct node *n, int k) { return k == 1 ? n->a : k == 2 ? n->b : k ? n : NULL; }
static int kind(struct node *n) { return n ? n->kind : 4; }
int main(void) {
    struct node *n = malloc(sizeof *n), *m = malloc(sizeof *m), *x;
    n->a = m; n->b = n; n->kind = __VERIFIER_nondet_int() ? 1 : 2;
    m->a = m->b = NULL; m->kind = 3;
    x = pick(n, __VERIFIER_nondet_int() ? kind(n) : kind(m));
    (x ? x : n)->kind = x == m ? 5 : 6;
    (__VERIFIER_nondet_int() ? n->a : n->b)->kind += kind(pick(n, 0)) == 4;
    if (x ? x->kind == 5 : n->kind == 6)
        n->kind = (x && x->kind) + !(n->a->kind == 5);
    free(x == m ? x : m);
    free(n);
    return __VERIFIER_nondet_int() ? kind(NULL) : 0;
}
