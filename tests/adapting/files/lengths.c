/* verify: SAFE */
#include <stdlib.h>
extern int __VERIFIER_nondet_int(void);
struct node { struct node *next; };
static struct node *build(int n) {
    struct node *l = NULL;
    while (n-- > 0) {
        struct node *x = malloc(sizeof *x);
        x->next = l;
        l = x;
    }
    return l;
}
static struct node *reverse(struct node *l) {
    struct node *r = NULL;
    while (l) {
        struct node *next = l->next;
        l->next = r;
        r = l;
        l = next;
    }
    return r;
}
static void destroy(struct node *l) {
    struct node *next;
    for (; l; l = next) {
        next = l->next;
        free(l);
    }
}
int main(void) {
    struct node *l = build(__VERIFIER_nondet_int());
    l = reverse(l);
    destroy(l);
    return 0;
}
