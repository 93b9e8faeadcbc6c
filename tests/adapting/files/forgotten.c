#include <stdlib.h>
#include <stdio.h>
extern int __VERIFIER_nondet_int(void);
struct pair { int key; unsigned long weight; double ratio; char name[12]; };
struct node { struct pair *pair; struct node *next; };
static int sum(struct node *l) {
    int s = 0;
    while (l) {
        s += l->pair->key * 2;
        l = l->next;
    }
    return s;
}
static struct node *cons(int key, struct node *next) {
    struct node *n = malloc(sizeof *n);
    n->pair = malloc(sizeof(struct pair));
    n->pair->key = key;
    n->pair->weight = (unsigned long)key << 3;
    n->pair->ratio = 1.5 * key;
    n->pair->name[0] = '\0';
    n->next = next;
    return n;
}
int main(void) {
    struct node *l = NULL;
    int n = __VERIFIER_nondet_int(), i;
    for (i = 0; i < n; i++)
        l = cons(i, l);
    if (sum(l) > 10 && l->pair->key < l->next->pair->key)
        printf("%d %s\n", l->pair->key, l->pair->name);
    else if (l && l->pair->ratio > 1.0)
        l->pair->weight ^= 3;
    while (l) {
        struct node *t = l;
        l = l->next;
        n -= t->pair->key;
        free(t->pair);
        free(t);
    }
    return n;
}
