/*
** agree.h: whether both sides of the benchmark give the same answers.
*/
#ifndef AGREE_H
#define AGREE_H

/* Compares them over all inputs and prints the differences; 1 if none. */
int sides_agree(void);

/* Its part with M and e as doubles: compares, counts, prints differences. */
void compare_doubles(void);

/* The same with cosine and steps. */
void compare_steps(void);

/* The same with flybys. */
void compare_flybys(void);

#endif
