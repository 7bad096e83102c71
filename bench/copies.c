/*
 * Linked in place of memcpy, memmove and memset (ld --wrap): prints at the end for each place that called them the calls and
 * the bytes, as "address calls bytes".
 */
#include <stddef.h>
#include <stdint.h>
#include <stdio.h>

void *__real_memcpy(void *to, const void *from, size_t n);
void *__real_memmove(void *to, const void *from, size_t n);
void *__real_memset(void *to, int byte, size_t n);

static struct place { uintptr_t address; unsigned long calls, bytes; } places[1024];

static void count(void *caller, size_t n)
{
    for (size_t i = 0; i < sizeof places / sizeof *places; i++)
        if (places[i].address == (uintptr_t)caller || places[i].calls == 0) {
            places[i].address = (uintptr_t)caller;
            places[i].calls++;
            places[i].bytes += n;
            return;
        }
}

void *__wrap_memcpy(void *to, const void *from, size_t n) { return count(__builtin_return_address(0), n), __real_memcpy(to, from, n); }
void *__wrap_memmove(void *to, const void *from, size_t n) { return count(__builtin_return_address(0), n), __real_memmove(to, from, n); }
void *__wrap_memset(void *to, int byte, size_t n) { return count(__builtin_return_address(0), n), __real_memset(to, byte, n); }

__attribute__((destructor)) static void print(void)
{
    for (size_t i = 0; i < sizeof places / sizeof *places && places[i].calls; i++)
        printf("%016jx %lu %lu\n", (uintmax_t)places[i].address, places[i].calls, places[i].bytes);
}
