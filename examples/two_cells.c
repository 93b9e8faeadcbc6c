struct node { struct node *next; };
int main(void) {
  struct node *x;
  struct node *y;
  x = malloc(sizeof(struct node));
  y = malloc(sizeof(struct node));
  x->next = y;
  y->next = NULL;
  y = x->next;
  free(x);
  free(y);
  return 0;
}
