/* Lent memory of every length, every refusal, each export of the library (the two asks sharing one), worked cases, and
   waits of twelve handles. */
#ifndef HOST_H
#define HOST_H

void test_guard(void);
void test_refusals(void);
void test_fresh_start(void);
void test_next_event(void);
void test_create_thread(void);
void test_end_thread(void);
void test_schedule(void);
void test_asks(void);
void test_dispatch(void);
void test_guest_objects(void);
void test_collect(void);
void test_cases(void);
void test_twelve(void);

#endif
