/* verify: SAFE */
#include <assert.h>
#include <stdlib.h>
extern int __VERIFIER_nondet_int(void);
struct node { int value; struct node *next; };
int main(void) {
    struct node *n = malloc(sizeof *n);
    n->value = __VERIFIER_nondet_int();
    n->next = n;
    assert(n->value < 18);
    assert(n->next == n && n->value > -3);
    assert(n->value != 4 || n->next->next == n);
    assert(n->next != NULL);
    free(n);
    return 0;
}
