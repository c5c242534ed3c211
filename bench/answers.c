/*
** answers.c: answers of both sides, number by number, and how many differ.
*/
#include <stdio.h>
#include <string.h>

#include "answers.h"

enum { SHOWN = 5 };

static unsigned long compared, different;

int same_ends(struct stripeawn_end s, struct stripeawn_end p)
{
    return s.code == p.code && s.accepted == p.accepted;
}

int same_enclosures(struct stripeawn_enclosure s,
                    struct stripeawn_enclosure p)
{
    return s.code == p.code && s.lower == p.lower && s.upper == p.upper;
}

int same_proposals(struct stripeawn_proposal s, struct stripeawn_proposal p)
{
    return s.code == p.code && s.angle == p.angle && s.e_sin == p.e_sin &&
           s.e_cos == p.e_cos && s.j == p.j;
}

int same_verdicts(struct stripeawn_verdict s, struct stripeawn_verdict p)
{
    return s.code == p.code && s.verdict == p.verdict;
}

int same_settled(struct stripeawn_settled s, struct stripeawn_settled p)
{
    return s.code == p.code && s.verdict == p.verdict && s.depth == p.depth;
}

int same_off(struct stripeawn_off s, struct stripeawn_off p)
{
    return s.code == p.code && s.least == p.least && s.most == p.most;
}

static int same_bits(double s, double p)
{
    return memcmp(&s, &p, sizeof s) == 0;
}

int same_steps(struct stripeawn_stepped s, struct stripeawn_stepped p)
{
    return s.code == p.code && s.step == p.step &&
           same_bits(s.estimate, p.estimate);
}

int same_judged_steps(struct stripeawn_judged_step s,
                      struct stripeawn_judged_step p)
{
    return s.code == p.code && s.step == p.step &&
           same_bits(s.estimate, p.estimate) && s.verdict == p.verdict;
}

struct stripeawn_settled in_turn(
    const struct stripeawn_verdict judged[STRIPEAWN_DEPTH_MAX])
{
    struct stripeawn_settled answer = { judged[0].code, 0, 0 };
    uint32_t depth = 1;

    if (answer.code != 0)
        return answer;
    while (depth < STRIPEAWN_DEPTH_MAX &&
           judged[depth - 1].verdict == STRIPEAWN_UNDECIDED)
        depth++;
    answer.verdict = judged[depth - 1].verdict;
    answer.depth = depth;
    return answer;
}

int to_be_shown(int same)
{
    compared++;
    return !same && different++ < SHOWN;
}

int none_differ(void)
{
    printf("%lu calls and answers compared on both sides, %lu differ\n",
           compared, different);
    return different == 0;
}
