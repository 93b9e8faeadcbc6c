struct node { struct node *next; };
int main(void) {
  struct node *x;
  x = malloc(sizeof(struct node));
  return 0;
}
