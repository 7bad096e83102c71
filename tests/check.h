/* Counts checks by group and prints what failed. */
#ifndef CHECK_H
#define CHECK_H

/* Begins a group with this name; the one before gets its line. */
void group(const char *text, ...) __attribute__((format(printf, 1, 2)));

/* One check. The text is printed if it failed. */
void check(int holds, const char *text, ...) __attribute__((format(printf, 2, 3)));

/* The last line; the exit status of the program. */
int report(void);

#endif
