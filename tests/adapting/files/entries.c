/* adapt: --entry push,pop,size,clear --build make */
/* verify: SAFE */
#include <stdlib.h>
struct node { struct node *next; int value; };
struct list { struct node *head; int size; };
struct list *make(int room) {
    struct list *l = malloc(sizeof *l);
    l->head = NULL;
    l->size = room;
    return l;
}
void push(struct list *l, int value) {
    struct node *n = malloc(sizeof *n);
    n->value = value;
    n->next = l->head;
    l->head = n;
    l->size++;
}
int pop(struct list *l) {
    struct node *n = l->head;
    int value = 0;
    if (n) {
        value = n->value;
        l->head = n->next;
        free(n);
    }
    return value;
}
int size(const struct list *l) {
    int k = 0;
    for (const struct node *n = l->head; n; n = n->next) k++;
    return k;
}
struct list *clear(struct list *l) {
    while (l->head) pop(l);
    return l;
}
