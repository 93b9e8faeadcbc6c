/* verify: UNSAFE fault 6 leak line 9 */
#include <stdlib.h>
struct node { struct node *next; int v; };
extern int __VERIFIER_nondet_int(void);
static struct node *mk(void) { struct node *n = malloc(sizeof *n); n->next = NULL; n->v = 0; return n; }
static void stop(int k) { exit(0); }
static void stop2(struct node *k) { exit(0); }
int main(void) {
    if (__VERIFIER_nondet_int()) stop2(mk()->next);
    return 0;
}
