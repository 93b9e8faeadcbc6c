/* verify: SAFE */
#include <stdlib.h>
#include <assert.h>
enum color { RED = 0, BLACK = 1 };
enum state { IDLE = 3, BUSY, DONE = 9 };
typedef enum { LEFT, RIGHT } side;
enum { FLAG = 40, OTHER = -1 };
struct node { enum color color; enum state state; side side; int number; struct node *next; };
int main(void) {
    struct node *n = malloc(sizeof *n);
    n->color = BLACK;
    n->state = IDLE;
    n->side = RIGHT;
    n->number = FLAG;
    n->next = NULL;
    if (n->number == OTHER)
        n->color = RED;
    if (n->state == IDLE)
        n->state = DONE;
    assert(n->state == DONE);
    assert(n->side == RIGHT);
    assert(n->color == BLACK || n->color == RED);
    free(n);
    return 0;
}
