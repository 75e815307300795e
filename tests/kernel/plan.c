/* plan.c: what a run is like. See plan.h. */
#include "plan.h"

#include <stdlib.h>
#include <string.h>

#include "chance.h"

plan_numbers plan;

/* ---- Numbers at random -------------------------------------------------------------------------------------------- */

static uint64_t chance_state;

void chance_begin(unsigned seed) {
    chance_state = mixed(seed * UINT64_C(1000003) + 17);
}

unsigned chance(unsigned below) {
    return below == 0 ? 0 : (unsigned)(mixed(chance_state += UINT64_C(0x9E3779B97F4A7C15)) % below);
}

/* ---- Numbers that are given --------------------------------------------------------------------------------------- */

static const char *const side_names[] = {"te", "nt", "te-e1", "nt-e1"};

typedef struct {
    const char *name;
    int *number;
    int given; /* and one more; 0 if it isn't */
} plan_name;

static plan_name names[] = {
    {"side", &plan.side, 0},       {"loss", &plan.loss, 0},       {"k", &plan.k, 0},           {"terms", &plan.terms, 0},
    {"devs", &plan.devs, 0},       {"layer1", &plan.layer1, 0},   {"remove", &plan.remove, 0}, {"restart", &plan.restart, 0},
    {"busy", &plan.busy, 0},       {"release", &plan.release, 0}, {"sapi16", &plan.sapi16, 0}, {"pending", &plan.pending, 0},
    {"audit", &plan.audit, 0},     {"fixed", &plan.fixed, 0},     {"spoil", &plan.spoil, 0},   {"log", &plan.log, 0}};
enum { NAMES = sizeof names / sizeof *names };

static int number_of(const char *word) {
    for (int side = KERNEL_TE; side <= KERNEL_NT_E1; side++)
        if (strcmp(word, side_names[side]) == 0)
            return side;
    return atoi(word);
}

bool plan_word(const char *word) {
    const char *value = strchr(word, '=');
    for (int i = 0; value != NULL && i < NAMES; i++)
        if (strlen(names[i].name) == (size_t)(value - word) && strncmp(names[i].name, word, (size_t)(value - word)) == 0) {
            names[i].given = 1 + number_of(value + 1);
            return true;
        }
    return false;
}

void plan_print(FILE *to) {
    fprintf(to, "side=%s", side_names[plan.side]);
    for (int i = 1; i < NAMES; i++)
        fprintf(to, " %s=%d", names[i].name, *names[i].number);
}

/* ---- Numbers that are chosen -------------------------------------------------------------------------------------- */

bool ours_is_network(void) {
    return plan.side == KERNEL_TE || plan.side == KERNEL_TE_E1;
}

bool is_primary(void) {
    return plan.side == KERNEL_TE_E1 || plan.side == KERNEL_NT_E1;
}

static void choose_all(void) {
    static const int often[] = {KERNEL_TE, KERNEL_TE, KERNEL_TE, KERNEL_NT, KERNEL_NT, KERNEL_TE_E1, KERNEL_NT_E1};
    static const int losses[] = {0, 2, 5, 10, 20};
    memset(&plan, 0, sizeof plan);
    plan.side = names[0].given > 0 ? names[0].given - 1 : often[chance(7)];
    plan.loss = losses[chance(5)];
    plan.k = chance(2) ? 1 : 7;
    plan.terms = 1 + (int)chance(chance(2) ? 8 : 3);
    plan.remove = chance(3) == 0;
    plan.restart = chance(3) == 0;
    plan.busy = (int)chance(2);
    plan.release = chance(3) > 0;
    plan.sapi16 = chance(3) == 0;
    plan.audit = (int)chance(2);
    plan.fixed = chance(6) == 0;
    if (plan.side == KERNEL_NT && plan.terms > 4)
        plan.terms = 4;
    bool is_shared = plan.side == KERNEL_TE && !plan.remove && !plan.restart && plan.loss == 0;
    plan.devs = plan.side != KERNEL_TE ? 1 : is_shared ? 1 + (int)chance((unsigned)plan.terms) : plan.terms;
}

/* What no run has: what mISDN does not do. */
static void leave_out(void) {
    if (is_primary()) {
        plan.terms = 1;
        plan.fixed = 0;
    }
    if (plan.side != KERNEL_TE)
        plan.devs = 1;
    if (plan.fixed) /* the kernel answers no check of a TEI that is set by hand */
        plan.audit = plan.remove = 0;
    if (plan.side == KERNEL_NT && !plan.fixed) /* its network has no SAPI 16 at a TEI that it assigned */
        plan.sapi16 = 0;
    if (plan.devs > plan.terms)
        plan.devs = plan.terms;
    if (plan.layer1 && plan.devs > 1)
        plan.devs = 1;
}

void plan_choose(unsigned seed) {
    chance_begin(seed);
    choose_all();
    for (int i = 1; i < NAMES; i++)
        if (names[i].given > 0)
            *names[i].number = names[i].given - 1;
    leave_out();
}
