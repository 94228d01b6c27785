# shellcheck shell=bash disable=SC2154 # of run, which sources this
# The headers from C++: every name that a call answers with is in scope.

from_cpp() {
    need g++ g++
    cat >"$room/client.cc" <<'END'
#include "golvanzo.h"
#include "plan.h"

int main() {
    plan_finding found{PLAN_UNDECIDED, 0};
    return found.says == PLAN_YES || found.says == PLAN_NO || GOLVANZO_WRONG_BYTE != 1;
}
END
    holds "the headers from C++" g++ -std=c++17 -Wall -Wextra -Werror -I c -o "$room/client" "$room/client.cc"
    [ -n "$emulator" ] || holds "a client in C++" "$room/client"
}

from_cpp
