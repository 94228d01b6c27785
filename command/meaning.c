/* The refusals for people, by their numbers, in the library's words. */
#include "meaning.h"

#include "../c/plan.h"

int is_refusal(uint64_t number) {
    return number > GOLVANZO_NOT_REFUSED && number < PLAN_NO_MEMORY && plan_sentence(number) != NULL;
}

void print_meaning(FILE *to, uint64_t number) {
    fprintf(to, "refusal %llu: %s\nWhat to do: %s\n", (unsigned long long)number, plan_sentence(number),
            plan_advice(number));
}

void print_meanings(FILE *to) {
    for (uint64_t number = 1; is_refusal(number); number++)
        print_meaning(to, number);
}
