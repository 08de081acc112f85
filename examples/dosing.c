/* A small dosing sequence in C: a sibling is refused what the other writes, and gets it once the other has committed. A rinse that is aborted goes on turning
   the analyzer, which nobody gets until it is quiet. `examples/run` builds and runs it. */
#include <stdio.h>

#include "dikothelm.h"

enum { CHECK = 1, SETUP = 2, SAMPLER = 3, RINSE = 4 }; /* actions */
enum { ANALYZER = 5 };                                 /* instruments */

static void say(const char *what, enum dikothelm_answer answer) {
    printf("%s: %d, %s\n", what, (int)answer, dikothelm_says(answer));
}

static void say_writer(const dikothelm_bench *bench) {
    uint64_t owners = dikothelm_heirs(bench, dikothelm_writers(bench, ANALYZER));
    unsigned k;
    if (!owners) puts("  the analyzer is written by nobody");
    for (k = 0; k < DIKOTHELM_ACTIONS; k++)
        if (owners >> k & 1) printf("  the analyzer is written by action %u%s\n", k, dikothelm_state(bench, k) == DIKOTHELM_DRAINING ? ", which drains" : "");
}

int main(void) {
    dikothelm_bench bench = {0};
    say("the check opens as a top action", dikothelm_open_top(&bench, CHECK));
    say("the pump setup opens under it", dikothelm_open_sub(&bench, SETUP, CHECK));
    say("the sampler opens beside the setup", dikothelm_open_sub(&bench, SAMPLER, CHECK));
    say("the setup writes the analyzer", dikothelm_write(&bench, SETUP, ANALYZER));
    say_writer(&bench);
    say("the sampler reads the analyzer", dikothelm_read(&bench, SAMPLER, ANALYZER));
    say("the setup commits", dikothelm_commit(&bench, SETUP));
    say_writer(&bench);
    say("the sampler reads the analyzer", dikothelm_read(&bench, SAMPLER, ANALYZER));
    say("the check commits", dikothelm_commit(&bench, CHECK));
    say("the sampler commits", dikothelm_commit(&bench, SAMPLER));
    say("the check commits", dikothelm_commit(&bench, CHECK));
    say_writer(&bench);
    say("a rinse opens as a top action", dikothelm_open_top(&bench, RINSE));
    say("the rinse writes the analyzer", dikothelm_write(&bench, RINSE, ANALYZER));
    say("the rinse is aborted", dikothelm_abort(&bench, RINSE));
    say_writer(&bench);
    say("the check opens again", dikothelm_open_top(&bench, CHECK));
    say("the check reads the analyzer", dikothelm_read(&bench, CHECK, ANALYZER));
    say("the analyzer is quiet for the rinse", dikothelm_quiet(&bench, RINSE, ANALYZER));
    say_writer(&bench);
    say("the check reads the analyzer", dikothelm_read(&bench, CHECK, ANALYZER));
    say("the check commits", dikothelm_commit(&bench, CHECK));
    return 0;
}
