/* verify: UNSAFE fault 6 leak line 9 */
#include <stdlib.h>
struct node { struct node *next; };
static struct node *head;
int main(void) {
    head = malloc(sizeof *head);
    if (head == NULL) exit(1);
    head->next = NULL;
    head = NULL;
    return 0;
}
