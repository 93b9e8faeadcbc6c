#include <stdlib.h>
extern int __VERIFIER_nondet_int(void);
typedef struct _dnode { struct _dnode *prev, *next; int data; } dnode;
typedef struct _dlist { dnode *head; dnode *tail; size_t size; } dlist;
static dlist *dlist_new(void) { dlist *l = calloc(1, sizeof *l); return l; }
static void dlist_push(dlist *l, int v) {
    dnode *n = malloc(sizeof *n);
    n->data = v; n->next = NULL; n->prev = l->tail;
    if (l->tail) l->tail->next = n; else l->head = n;
    l->tail = n;
    ++l->size;
}
static int dlist_remove(dlist *l, dnode *n) {
    int v = n->data;
    if (n->prev) n->prev->next = n->next; else l->head = n->next;
    if (n->next) n->next->prev = n->prev; else l->tail = n->prev;
    free(n);
    l->size -= 1;
    return v;
}
static dnode *dlist_find(dlist *l, int v) {
    dnode *n;
    for (n = l->head; n != NULL && n->data != v; n = n->next) {}
    return n;
}
int main(void) {
    dlist *l = dlist_new();
    int i = 0, v;
    while (i < 6 && __VERIFIER_nondet_int()) dlist_push(l, i++);
    while ((v = __VERIFIER_nondet_int()) > 0) {
        dnode *n = dlist_find(l, v);
        if (n == NULL) break;
        if (dlist_remove(l, n) != v) abort();
    }
    while (l->size > 0 && l->head) dlist_remove(l, l->head);
    while (l->head) dlist_remove(l, l->head);
    free(l);
    return 0;
}
