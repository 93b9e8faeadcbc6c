#include <stdlib.h>
struct item { struct node *owner; };
struct node { struct node *next; struct item *item; };
int main(void) {
  struct node *l = NULL;
  while (__VERIFIER_nondet_int()) {
    struct node *n = malloc(sizeof(struct node));
    n->item = malloc(sizeof(struct item));
    n->item->owner = n;
    n->next = l;
    l = n;
  }
  while (l) {
    struct node *t = l->next;
    free(l->item);
    free(l);
    l = t;
  }
  return 0;
}
