struct node { struct node *next; };
int odd(struct node *n);
int even(struct node *n) {
    if (!n) return 1;
    return odd(n->next); /* refused: recursion */
}
int odd(struct node *n) { return n ? even(n->next) : 0; } /* refused: recursion */
int main(void) { return even(0); }
