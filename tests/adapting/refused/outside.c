#include <stdlib.h>
struct node { struct node *next; };
static struct node *head;
extern int look(int n);
extern struct node *give(void);
extern void take(struct node *n);
int main(void) {
    head = give(); /* refused: gives pointers */
    take(head); /* refused: gets a pointer */
    return look(3); /* refused: may see the pointer head */
}
