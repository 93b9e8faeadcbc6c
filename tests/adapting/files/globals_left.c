#include <stdlib.h>
struct node { struct node *next; };
struct list { struct node *first; int size; } all = { NULL, 0 };
static void add(void) {
    struct node *n = malloc(sizeof *n);
    n->next = all.first;
    all.first = n;
    all.size++;
}
extern int __VERIFIER_nondet_int(void);
int main(void) {
    add();
    while (__VERIFIER_nondet_int())
        add();
    if (all.size > 4)
        exit(3);
    while (all.first) {
        struct node *n = all.first->next;
        free(all.first);
        all.first = n;
    }
    if (all.first == NULL)
        return all.size;
    return 0;
}
