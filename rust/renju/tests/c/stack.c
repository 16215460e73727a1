/* Asks one strict question on a thread that has so many bytes of stack for it and no more: below them lies a
 * page that may not be touched. Arguments: the board's text, the code, how many bytes. Writes the verdict. */
#define _DEFAULT_SOURCE
#include "renju.h"

#include <alloca.h>
#include <pthread.h>
#include <stdio.h>
#include <stdlib.h>
#include <string.h>
#include <sys/mman.h>

enum { PAGE = 4096, STACK = 64 * PAGE };

static uint8_t cells[RENJU_CELLS_BYTES];
static uint8_t code;
static size_t bytes;
static uint8_t *lowest; /* the lowest byte of the thread's stack */
static uint32_t said;

/* Uses up the stack but for the bytes that are to be left at the call, and asks. What a call itself puts there is
 * the first of them. */
static void *ask(void *unused) {
    uint8_t *here = (uint8_t *)alloca(16);
    uint8_t *last = (uint8_t *)alloca((size_t)(here - lowest) - bytes - 16);
    memset(last, 0, 16);
    if ((size_t)(last - lowest) < bytes || (size_t)(last - lowest) > bytes + 16) {
        printf("%ld bytes are left, not %ld\n", (long)(last - lowest), (long)bytes);
        exit(2);
    }
    said = renju_forbidden_strict(cells, sizeof cells, code);
    return unused;
}

int main(int count, char **words) {
    pthread_attr_t with;
    pthread_t thread;
    uint8_t *room;
    if (count != 4) {
        return 2;
    }
    if (renju_read((const uint8_t *)words[1], strlen(words[1]), cells, sizeof cells) != RENJU_CELLS_BYTES) {
        return 2;
    }
    code = (uint8_t)atoi(words[2]);
    bytes = (size_t)atoi(words[3]) / 16 * 16;
    room = (uint8_t *)mmap(NULL, PAGE + STACK, PROT_READ | PROT_WRITE, MAP_PRIVATE | MAP_ANONYMOUS, -1, 0);
    if (room == MAP_FAILED || mprotect(room, PAGE, PROT_NONE) != 0) {
        return 2;
    }
    lowest = room + PAGE;
    if (pthread_attr_init(&with) != 0 || pthread_attr_setstack(&with, lowest, STACK) != 0) {
        return 2;
    }
    if (pthread_create(&thread, &with, ask, NULL) != 0 || pthread_join(thread, NULL) != 0) {
        return 2;
    }
    printf("%u\n", (unsigned)said);
    return 0;
}
