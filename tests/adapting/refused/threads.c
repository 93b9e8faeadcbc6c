#include <stdlib.h>
#include <pthread.h>
struct node { struct node *next; };
int main(void) {
    pthread_t thread;
    pthread_create(&thread, NULL, NULL, NULL); /* refused: threads */
    return 0;
}
