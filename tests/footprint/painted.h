/* The stack that a call needs, seen by making it on a painted one. For x86-64 and its System V calls. */
#ifndef PAINTED_H
#define PAINTED_H

#ifndef __x86_64__
#error "the stack is measured on x86-64 alone"
#endif

#include <stddef.h>
#include <stdint.h>

/* Every call is given so many numbers, and takes the first ones. */
#define GIVEN 12

typedef void (*painted_call)(void);

/* Makes the stack, between two guard pages. */
void painted_make(void);

/*
 * Makes the call on two paints, one after the other, each time after `before`: a byte that the call leaves as one of them is seen in
 * the other. Says how many bytes of stack it needed, with its return address and without the numbers that it was given.
 */
size_t painted_need(painted_call before, painted_call call, const uint64_t given[GIVEN], uint64_t *answer);

#endif
