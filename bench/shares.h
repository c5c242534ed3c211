/*
** shares.h: at which depths claims are settled.
*/
#ifndef SHARES_H
#define SHARES_H

/* Draws this many claims of each kind and prints the shares. */
void print_shares(long claims);

#endif
