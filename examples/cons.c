struct node { struct node *next; };
struct node *cons(struct node *t) {
  struct node *n = malloc(sizeof(struct node));
  n->next = t;
  return n;
}
int main(void) {
  struct node *x = cons(NULL);
  free(x);
  return 0;
}
