/* verify: SAFE */
#include <stdlib.h>
#include <assert.h>
extern int __VERIFIER_nondet_int(void);
enum kind { LEAF, ONE, TWO, LOST };
struct cell { enum kind kind; struct cell *a; struct cell *b; int size; };
struct cell *make(enum kind kind, struct cell *a, struct cell *b) {
    struct cell *c = malloc(sizeof *c);
    c->kind = kind;
    c->a = c->b = NULL;
    c->size = 0;
    switch (kind) {
    case LEAF:
        break;
    case ONE:
        c->a = a;
        break;
    case TWO: {
        c->a = a;
        c->b = b;
        break;
    }
    case LOST:
    default:
        abort();
    }
    return c;
}
int main(void) {
    struct cell *x = make(LEAF, NULL, NULL), *y = make(LEAF, NULL, NULL);
    struct cell *c = make(__VERIFIER_nondet_int() ? TWO : ONE, x, y);
    int size = 0;
    switch (c->kind) {
    default:
        assert(0);
        break;
    case ONE:
        free(y);
        if (c->size > 3)
            c->size = 2;
        size = 1;
        if (c->a == NULL)
            break;
        c->size = 1;
        break;
    case TWO:
        size = 2;
    }
    while (size) {
        switch (size) {
        case 2:
            free(c->b);
            size = 1;
            continue;
        case 1:
            free(c->a);
            break;
        }
        size = 0;
    }
    switch (c->size + 1) {
    case 3: case 4:
        c->size = 5;
        break;
    case 17:
        c->size = 6;
        break;
    }
    free(c);
    return 0;
}
