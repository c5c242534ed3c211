/*
** main.c: runs every group of checks against the linked library.
*/
#include "check.h"

int main(void)
{
    test_header();
    test_sine();
    test_cosine();
    test_ends();
    test_spent();
    test_top();
    test_enclose();
    test_propose();
    test_judge();
    test_undecided();
    test_settle();
    test_settle_limits();
    test_distance();
    test_distance_laws();
    test_step();
    test_step_limits();
    test_step_judged();
    test_step_laws();
    test_figures();
    test_mirror();
    test_estimates();
    test_order();
    test_doubles_order();
    test_step_order();
    test_doubles();
    test_cells();
    test_roots();
    test_laws();
    test_flyby_header();
    test_flyby();
    test_flyby_enclose();
    test_flyby_judge();
    test_flyby_estimates();
    test_flyby_laws();
    test_flyby_order();
    test_batch();
    test_buffers();
    test_threads();
    return check_report();
}
