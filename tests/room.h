/* Memory that ends right before a page that nobody may touch. */
#ifndef BEANMORROW_ROOM_H
#define BEANMORROW_ROOM_H

#define _DEFAULT_SOURCE /* for MAP_ANONYMOUS */

#include <stdint.h>
#include <stdio.h>
#include <stdlib.h>
#include <sys/mman.h>
#include <unistd.h>

enum { ROOM_BYTES = 1 << 20 };

/* The end of a new room of ROOM_BYTES bytes. */
static uint8_t *end_of_room(void)
{
    size_t page = (size_t)sysconf(_SC_PAGESIZE);
    uint8_t *memory = mmap(NULL, ROOM_BYTES + page, PROT_READ | PROT_WRITE,
                           MAP_PRIVATE | MAP_ANONYMOUS, -1, 0);
    if (memory == MAP_FAILED ||
        mprotect(memory + ROOM_BYTES, page, PROT_NONE) != 0) {
        perror("mmap");
        exit(2);
    }
    return memory + ROOM_BYTES;
}

#endif
