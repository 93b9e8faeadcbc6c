/* verify: SAFE */
#include <assert.h>
#include <stdbool.h>
#include <stdlib.h>
extern _Bool __VERIFIER_nondet_bool(void);
extern int __VERIFIER_nondet_int(void);
struct node { bool marked; struct node *next; };
static bool has(struct node *n) { return n; }
static int flip(bool b) { return !b; }
int main(void) {
    struct node *n = malloc(sizeof *n);
    bool b = __VERIFIER_nondet_bool(), c = 4, d = b == c, e = n, f = __VERIFIER_nondet_int();
    n->next = NULL;
    n->marked = b && !d;
    if (n->marked)
        assert(b);
    assert(c == true);
    assert(e);
    n->marked = has(n->next);
    assert(n->marked == false);
    n->marked = !n->marked;
    assert(flip(n->marked) == 0);
    if (f)
        n->next = n;
    if (__VERIFIER_nondet_bool() == b)
        d = flip(d);
    d = (bool)n->marked;
    assert(d);
    free(n);
    return 0;
}
