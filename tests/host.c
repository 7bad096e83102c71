/* Calls every export of the static library as a host would, and as a careless one would. */
#include "host.h"

#include "check.h"

#include <stdio.h>

int main(void)
{
    /* what passed is to be seen even if a byte outside its bounds ends the program; the guards come first, which name the call */
    setvbuf(stdout, NULL, _IOLBF, 0);
    test_guard();
    test_refusals();
    test_fresh_start();
    test_next_event();
    test_create_thread();
    test_end_thread();
    test_schedule();
    test_asks();
    test_dispatch();
    test_guest_objects();
    test_collect();
    test_cases();
    test_twelve();
    return report();
}
