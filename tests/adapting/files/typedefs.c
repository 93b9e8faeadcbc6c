/* verify: SAFE */
#include <stdlib.h>
typedef struct item item;
struct item { item *next; };
typedef item *link;
typedef struct { link first; link last; } queue;
extern int __VERIFIER_nondet_int(void);
static queue *queue_new(void) {
    queue *q = malloc(sizeof(queue));
    q->first = q->last = NULL;
    return q;
}
static void push(queue *const q) {
    link new_one = (link)malloc(sizeof(item));
    new_one->next = NULL;
    if (!q->first)
        q->first = new_one;
    else
        q->last->next = new_one;
    q->last = new_one;
}
int main() {
    queue *q = queue_new();
    while (__VERIFIER_nondet_int())
        push(q);
    while (q->first != 0) {
        link gone = q->first;
        q->first = gone->next;
        free((void *)gone);
    }
    free(q);
    return (0);
}
