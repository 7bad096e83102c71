/* Runs a call that may touch a page it has no right to. */
#ifndef FAULT_H
#define FAULT_H

/* Did it return? If it read or wrote a page that it may not, it was broken off there. */
int returns(void (*run)(void *), void *with);

#endif
