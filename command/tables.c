#include "tables.h"

const struct table tables[TABLES] = {
    {GOLVANZO_TABLE_INPUTS, PLAN_INPUTS, PLAN_I, 1, "inputs"},
    {GOLVANZO_TABLE_LATCHES, PLAN_LATCHES, PLAN_L, 2, "latches"},
    {GOLVANZO_TABLE_OUTPUTS, PLAN_OUTPUTS, PLAN_O, 1, "outputs"},
    {GOLVANZO_TABLE_GATES, PLAN_GATES, PLAN_A, 3, "gates"},
    {GOLVANZO_TABLE_SCRATCH, PLAN_TABLES, PLAN_M, 0, "scratch"},
    {GOLVANZO_TABLE_RESETS, PLAN_RESETS, PLAN_L, 1, "resets"},
    {GOLVANZO_TABLE_BADS, PLAN_BADS, PLAN_B, 1, "bads"},
    {GOLVANZO_TABLE_CONSTRAINTS, PLAN_CONSTRAINTS, PLAN_C, 1, "constraints"},
};

const char *const count_letters[PLAN_COUNTS] = {"M", "I", "L", "O", "A", "B", "C"};

const char *const count_nouns[PLAN_COUNTS] = {"variables", "inputs",     "latches",    "outputs",
                                              "gates",     "bad states", "constraints"};
