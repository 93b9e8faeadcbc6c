/* verify: SAFE */
/* adapt: -I tests/adapting/headers */
#include "stack.h"
extern int __VERIFIER_nondet_int(void);

int main(void)
{
    stack *s = malloc(sizeof(stack));
    stack_cell *c;
    STACK_NEW(s);
    while (__VERIFIER_nondet_int())
        stack_push(s, 3);
    stack_each(c, s)
        c->value *= 2;
    while (stack_pop(s) == STACK_FINE)
        ;
    free(s);
    return 0;
}
