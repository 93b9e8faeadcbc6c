struct node { struct node *next; };
int main(void) {
    struct node *n = ; /* refused: this does not parse */
    return 0;
}
