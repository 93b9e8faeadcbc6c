#include <stdlib.h>
struct item { struct item *next; struct item *prev; };
struct queue { struct item *first; struct task *owner; };
struct task { struct task *next; struct queue *queue; };
int main(void) {
  struct task *all = NULL;
  while (__VERIFIER_nondet_int()) {
    struct task *t = malloc(sizeof(struct task));
    struct queue *q = malloc(sizeof(struct queue));
    t->queue = q;
    q->owner = t;
    q->first = NULL;
    while (__VERIFIER_nondet_int()) {
      struct item *i = malloc(sizeof(struct item));
      i->prev = NULL;
      i->next = q->first;
      if (i->next)
        i->next->prev = i;
      q->first = i;
    }
    t->next = all;
    all = t;
  }
  while (all) {
    struct task *t = all->next;
    while (all->queue->first) {
      struct item *i = all->queue->first;
      all->queue->first = i->next;
      if (i->next)
        i->next->prev = NULL;
      free(i);
    }
    free(all->queue);
    free(all);
    all = t;
  }
  return 0;
}
