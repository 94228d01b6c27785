/* The refusals in words: docs/REFUSALS.md, a sentence each for what is wrong, for the place, and for what to do. */
#include "plan.h"

struct saying {
    const char *sentence, *place, *advice;
};

static const struct saying sayings[] = {
    [GOLVANZO_NOT_REFUSED] = {"Nothing is refused.", "", ""},
    [GOLVANZO_WRONG_BYTE] =
        {"Something stands here that can't: a letter, a second space, a leading zero, a missing new line. Or the file ends too early.",
         "the offset of the byte, or the file's length if it ends too early",
         "Look at the byte that is marked and write what the sentence asks for. If the file ends too early, get it again: it was cut off. plan mend FILE mends what suppliers' programs often get wrong."},
    [GOLVANZO_LARGE_COUNT] = {"A number of the header is over 1,048,575.",
                              "the offset of the number; for tables, 1 to 7 for M, I, L, O, A, B, C",
                              "Cut the plan into smaller ones. No plan may have more than 1,048,575 of anything."},
    [GOLVANZO_WRONG_SUM] =
        {"The header doesn't add up: there are more inputs, latches and gates than M says, or, in binary and on plan cards, fewer.",
         "0", "Correct the header: M must be at least I + L + A, and in binary and on plan cards exactly that."},
    [GOLVANZO_SHORT_TABLE] =
        {"The plan is too large for the room that it is given: a table lent for it is too short.",
         "the number of the first such table, 1 to 9",
         "Lend longer tables: plan words FILE says how long. Of the programs, use plan instead, which takes every size."},
    [GOLVANZO_OUT_OF_RANGE] =
        {"A literal is too large for M; or it is odd or 0 where an input, a latch or a gate gets its variable; or a latch is reset to something else than 0, 1 or itself.",
         "the offset of the literal; for tables and cards, the table's number",
         "Correct the literal, or M, if that is too small. A literal is twice its variable, and one more where it is negated."},
    [GOLVANZO_DEFINED_TWICE] = {"A variable is defined a second time.",
                                "the offset of the second definition; for tables, its table's number",
                                "Give one of the two another variable. The note shows the first definition."},
    [GOLVANZO_NOT_DEFINED] =
        {"A variable is used that no input, latch or gate defines.", "the least such variable",
         "Define the variable, or use another one. Often M or a line was left out by whoever wrote the file."},
    [GOLVANZO_CYCLIC] = {"A gate depends on itself, through any number of gates.",
                         "the variable of the first gate that is on a cycle or depends on one",
                         "Break the circle: the notes go around it. A loop must pass through a latch."},
    [GOLVANZO_BAD_DIFFERENCE] =
        {"A gate of a binary file names a wrong wire: a difference is larger than what it is taken from, or the first one is zero.",
         "the offset of the difference",
         "Have the file written again by whoever made it. As text its gates can be read: the first wrong gate is the one that is named."},
    [GOLVANZO_BAD_SYMBOL] =
        {"A name is given to an input, latch, output, bad state or constraint that isn't there, or to one that has a name.",
         "the offset of the symbol's line", "Correct the position in the symbol, or leave one of the two names out."},
    [GOLVANZO_SHORT_BUFFER] =
        {"The file to be written doesn't fit into the room for it.", "how many bytes it needs",
         "Lend more room: the place says how many bytes. Of the programs, use plan instead, which takes every size."},
    [GOLVANZO_BAD_VECTOR] = {"A vector of values has the wrong length, or holds something else than 0, 1, x.",
                             "1 the state, 2 the inputs, 3 the outputs, 4 the values on the screen",
                             "Give each line as many values as the plan has inputs, of 0, 1 and x alone."},
    [GOLVANZO_LONG_INPUT] =
        {"An input of a program has more than 65,536 bytes; or a report is asked over more than 65,536 steps; or more rows are stepped at once than there are lanes.",
         "how many there may be: 65,536, or 64 rows",
         "Cut the list of vectors into shorter ones. Of the programs, use plan instead, which takes longer files."},
    [GOLVANZO_UNREADABLE] = {"A program can't read a file: it isn't there, is a folder, or may not be read.", "0",
                             "Look whether the name is right and whether you may read the file."},
    [GOLVANZO_NOT_IN_ORDER] =
        {"The tables are not in binary order, and the call needs that; convert first. Or plan cards are not. Or a gate would get a right side that is not below its left side.",
         "0", "Run plan convert first. For plan rewire: choose a right side below the gate's left side."},
    [GOLVANZO_LONG_DIFFERENCE] =
        {"A gate of a binary file is badly written: a difference has more than three bytes, or more than it needs. This is judged before 9.",
         "the offset of the difference",
         "Have the file written again by whoever made it: numbers must be written in as few bytes as they need."},
    [GOLVANZO_NOT_EXPLAINED] =
        {"The explainer can't say why: there is no output of that number, or it is x in that step. Or a search is to watch an output that isn't there.",
         "1 if it is not there, 2 if it is x",
         "Choose another output or another step; plan trace shows the values of all. An x can't be explained."},
    [GOLVANZO_WRONG_MARK] =
        {"A record of plan cards starts with another mark than stands there by the counts.", "the offset of the mark",
         "The cards are mixed up or from another machine: have them punched again. plan check FILE shows what an AIGER file is."},
    [GOLVANZO_NOT_ON_CARDS] =
        {"Plan cards can't hold this: symbols, a comment, a reset that is not 0, a bad state or a constraint.", "0",
         "Take out what cards can't hold, if it is not needed: plan strip takes names and comments off."},
    [GOLVANZO_MANY_X] =
        {"The witness question has too much to fill: latches that start as x and x of the list are more than 20. In three values it can be asked.",
         "how many there are",
         "Use plan witness --three, which asks in three values, or give values for some of the x."},
    [GOLVANZO_JUSTICE] =
        {"The header counts justice or fairness properties (its eighth and ninth numbers), which are not read here.",
         "the offset of that number",
         "Have the file written without justice and fairness properties. Bad states and constraints are read."},
    [GOLVANZO_NO_GATE] = {"There is no such gate to be rewired: gates count from 0.", "the number",
                          "Count again: the first gate is 0, and plan check FILE says how many there are (A)."},
    [GOLVANZO_WRONG_VALUE] =
        {"The values on the screen are no step's: one doesn't follow from those of lower variables, or is something else than 0, 1, x.",
         "the least variable whose value is wrong", "Compute the values again by a step of the plan as it is now."},
    [GOLVANZO_MANY_GATES] =
        {"The plan has more gates than the plain engine takes: it is for teaching, and asks again and again for the same values.",
         "how many gates it has", "Use plan trace, which takes any number of gates."},
    [GOLVANZO_MANY_LATCHES] = {"The search visits every state of a plan, and this one has more than 20 latches.",
                               "how many latches it has",
                               "Search a part of the plan with fewer latches, or try chosen vectors by plan trace."},
    [GOLVANZO_MANY_INPUTS] =
        {"The search tries every vector at each state, and the plan has more than 20 inputs.", "how many inputs it has",
         "Hold some inputs at a value, so that fewer are left, or try chosen vectors by plan trace."},
    [GOLVANZO_NOT_ALIKE] =
        {"Two plans can't be compared: they have different numbers of inputs, or of outputs.",
         "1 for inputs, 3 for outputs",
         "Compare plans of the same board: both need the same inputs and outputs, in the same order."},
};

_Static_assert(sizeof sayings / sizeof sayings[0] == GOLVANZO_NOT_ALIKE + 1, "every refusal has its words");

static const struct saying memory = {"The system has no memory left for this.", "",
                                     "Close something, or use a smaller plan."};

static const struct saying *saying_of(uint64_t number) {
    static const struct saying none = {NULL, NULL, NULL};
    if (number == PLAN_NO_MEMORY)
        return &memory;
    return number < sizeof sayings / sizeof sayings[0] ? &sayings[number] : &none;
}

const char *plan_sentence(uint64_t number) { return saying_of(number)->sentence; }

const char *plan_place(uint64_t number) { return saying_of(number)->place; }

const char *plan_advice(uint64_t number) { return saying_of(number)->advice; }
