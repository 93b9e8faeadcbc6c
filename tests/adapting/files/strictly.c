/* adapt: --strict */
/* verify: UNSAFE fault 7 failed assertion line 9 */
#include <assert.h>
#include <stdlib.h>
extern int __VERIFIER_nondet_int(void);
struct node { int value; struct node *next; };
int main(void) {
    int n = __VERIFIER_nondet_int();
    assert(n < 3 && n > 1);
    return 0;
}
