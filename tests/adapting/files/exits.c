#include <stdlib.h>
extern int __VERIFIER_nondet_int(void);
void __VERIFIER_error(void);
void __VERIFIER_assume(int);
struct node { struct node *next; int left; };
static void fail(int code) { exit(code + 1); }
int main(void) {
    struct node *n = malloc(sizeof *n);
    n->left = 0;
    __VERIFIER_assume(__VERIFIER_nondet_int() != 2);
    __VERIFIER_assume(n != NULL);
    if (__VERIFIER_nondet_int()) fail(n->left);
    if (__VERIFIER_nondet_int()) __VERIFIER_error();
    __VERIFIER_nondet_int() ? free(n) : abort();
    n = NULL;
    __VERIFIER_nondet_int() && (fail(2), 1);
    return 0;
}
