#include <stdlib.h>
extern int __VERIFIER_nondet_int(void);
struct node { struct node *next, *prev; int a, b; };
struct node *make(void) {
    struct node *n;
    n = malloc(sizeof *n);
    n->next = n->prev = n;
    n->a = n->b = 0;
    return n;
}
int main(void) {
    struct node *x, *y, *z;
    int i, j, k;
    x = y = make();
    z = (y = make());
    z->next = x->next = y->prev = NULL;
    i = j = k = 1;
    if ((x->a = i) == 1)
        y->b = x->a;
    i += j -= 3;
    k = (j++, i--, 2);
    x->a = y->b = k;
    x->b = (i = 4, y->a = 5);
    (x->next = y)->a++;
    k = x->next->a++ + --x->b;
    x->prev = __VERIFIER_nondet_int() ? x : y;
    i ? (j = 1) : (j = 2);
    free(x->next);
    free(x);
    return 0;
}
