#include "words.h"
#include "ildorzhen.h"

/* A refusal that is added gets a row, anywhere; c/check/run tells where one is missing. */
static const struct { uint64_t number; struct ildorzhen_wording words; } ROWS[] = {
    {0, {"at place", "there is no refusal"}},
    {ILDORZHEN_BAD_BOUND, {"at place", "the bound is not 1 to 64"}},
    {ILDORZHEN_BAD_FORM, {"at place", "the form is not 0 or 1"}},
    {ILDORZHEN_TABLE_TOO_LONG, {"at place", "the table is longer than 32,768 bytes"}},
    {ILDORZHEN_PLAN_TOO_LONG, {"at place", "the plan is longer than 65,536 bytes"}},
    {ILDORZHEN_TABLE_ENDS, {"at table byte", "the table ends before this number or inside it"}},
    {ILDORZHEN_BAD_NUMBER, {"at table byte", "this number is not in its shortest form, or over 64 bits"}},
    {ILDORZHEN_OUT_OF_RANGE, {"at table byte", "this count or cost is beyond its range"}},
    {ILDORZHEN_NOT_THERE, {"at table byte", "this fact or task is not there, or the task is of the wrong kind"}},
    {ILDORZHEN_BYTES_AFTER_TABLE, {"at table byte", "the table has ended, and bytes follow"}},
    {ILDORZHEN_NO_SUCH_SECTION, {"at place", "there is no such section"}},
    {ILDORZHEN_LINE_SHAPE, {"at line", "this is not a plan's line, or its line feed is missing"}},
    {ILDORZHEN_NOT_EMITTED, {"at line", "this operator does not exist, or not at this position"}},
    {ILDORZHEN_NOT_APPLICABLE,
     {"at line", "the task of this operator is not on top, or a fact that it needs does not hold"}},
    {ILDORZHEN_STACK_NOT_EMPTY, {"after line", "the plan stops with work left on the stack"}},
    {ILDORZHEN_GOAL_MISSING, {"after line", "the plan ends and a goal fact is missing"}},
    {ILDORZHEN_NO_ROOM, {"with bytes to write", "there is too little room for what is to be written"}},
    {ILDORZHEN_BAD_LIMITS, {"at place", "a plan's most operators are not 1 to 256, or the budget is above 1,000,000"}},
    {ILDORZHEN_NO_PLAN, {"with operators applied", "there is no plan of so few operators"}},
    {ILDORZHEN_OVER_BUDGET, {"at place", "the search would apply more operators than its budget allows"}},
};

struct ildorzhen_wording ildorzhen_words(uint64_t number)
{
    static const struct ildorzhen_wording unknown = {"at place", "a refusal that this program does not know"};
    for (size_t k = 0; k < sizeof ROWS / sizeof ROWS[0]; k++)
        if (ROWS[k].number == number)
            return ROWS[k].words;
    return unknown;
}
