/* verify: SAFE */
#include <stdlib.h>
extern int __VERIFIER_nondet_int(void);
typedef struct node { int key; struct node *next; } node;
static node *insert(node *list, int key) {
    node *new_one = malloc(sizeof(node)), *at;
    if (!new_one) abort();
    new_one->key = key;
    if (list == NULL || key <= list->key) {
        new_one->next = list;
        return new_one;
    }
    for (at = list; at->next && at->next->key < key; at = at->next)
        ;
    new_one->next = at->next;
    at->next = new_one;
    return list;
}
static int contains(const node *list, int key) {
    while (list) {
        if (list->key == key) return 1;
        if (list->key > key) return 0;
        list = list->next;
    }
    return 0;
}
int main(void) {
    node *list = NULL;
    while (__VERIFIER_nondet_int()) {
        int key = __VERIFIER_nondet_int();
        if (!contains(list, key))
            list = insert(list, key);
    }
    while (list) {
        node *gone = list;
        list = list->next;
        free(gone);
    }
    return 0;
}
