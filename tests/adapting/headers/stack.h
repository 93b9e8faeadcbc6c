#ifndef STACK_H
#define STACK_H
#include <stdlib.h>
#include <stdbool.h>

typedef struct stack_cell { struct stack_cell *below; int value; } stack_cell;
typedef struct { stack_cell *top; unsigned depth; } stack;
typedef int (*compare)(const void *, const void *);
struct never { void *a; union { int b; float c; } d; };
enum stack_error { STACK_FINE, STACK_EMPTY };

#define STACK_NEW(s) do { (s)->top = NULL; (s)->depth = 0; } while (0)
#define stack_each(cell, s) for (cell = (s)->top; cell; cell = cell->below)

static inline bool stack_is_empty(const stack *s)
{
    return s->top == NULL;
}
static inline void stack_push(stack *s, int value)
{
    stack_cell *c = malloc(sizeof *c);
    c->value = value;
    c->below = s->top;
    s->top = c;
    s->depth++;
}
static inline enum stack_error stack_pop(stack *s)
{
    stack_cell *c;
    if (stack_is_empty(s))
        return STACK_EMPTY;
    c = s->top;
    s->top = c->below;
    s->depth--;
    free(c);
    return STACK_FINE;
}
static inline int stack_sort(stack *s, compare how) { return how(s->top, s->top); }
#endif
