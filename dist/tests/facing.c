/* facing.c: two facing cards. The example wire.c says itself whether all is as promised; where it is not, it ends the program. */
#include "check.h"

#define main wire
#include "../examples/trace.c"
#include "../examples/wire.c"

/* By a seed, and so many of 100 frames lost. */
static void face(char *number, char *losses, char *contents) {
    char *words[] = {(char[]){"wire"}, number, losses, contents, NULL};
    wire_end of_network = {.name = "network", .side = LAPD_NETWORK}, of_user = {.name = "user", .side = LAPD_USER};
    network = of_network;
    user = of_user;
    now = 0;
    wants(wire(4, words) == 0, "two facing cards, seed %s", number);
}

void check_facing(void) {
    face((char[]){"1"}, (char[]){"0"}, (char[]){"2000"});
    face((char[]){"2"}, (char[]){"10"}, (char[]){"2000"});
    face((char[]){"3"}, (char[]){"40"}, (char[]){"300"});
}
