#include <stdlib.h>
extern void __assert_fail(const char *, const char *, unsigned, const char *) __attribute__((__noreturn__));
extern void abort(void) __attribute__((__noreturn__));
void reach_error() { __assert_fail("0", "labels.c", 4, "reach_error"); }
extern int __VERIFIER_nondet_int(void);
void assume_abort_if_not(int cond) {
    if (!cond) { abort(); }
}
void __VERIFIER_assert(int cond) {
    if (!(cond)) {
    ERROR: { reach_error(); abort(); }
    }
    return;
}
struct node { struct node *next; };
int main(void) {
    struct node *n = malloc(sizeof *n);
    n->next = NULL;
    assume_abort_if_not(__VERIFIER_nondet_int() != 0);
    __VERIFIER_assert(n->next == NULL);
    n->next = __VERIFIER_nondet_int() ? n : NULL;
    __VERIFIER_assert(n->next == NULL);
    free(n);
    return 0;
}
