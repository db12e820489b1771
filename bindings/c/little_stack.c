/* Makes each call on a thread that has as much stack as krates.h asks for, and no page more, about the documents and certificates that
 * need the most: the deepest that are read, and the next, which are refused. Says how much was used.
 *
 *     little_stack DOCUMENT
 *
 * The document begins with its packages, and has the target `cfg(unix)`.
 */
#define _GNU_SOURCE
#include "trials.h"

#include <pthread.h>
#include <stdio.h>
#include <string.h>
#include <sys/mman.h>
#include <unistd.h>

/* ---- texts */

/* What stands in the place of a part of a text: something that is opened and closed many times. */
struct nest {
    const char *part, *front, *open, *inner, *close, *back;
};

static const struct nest nests[] = {
    {"{\"packages\":[{", "{\"packages\":[{\"metadata\":", "{\"a\":", "0", "}", ","},
    {"{\"packages\":[{", "{\"packages\":[{\"unknown\":", "[", "", "]", ","},
    {"{\"packages\"", "{\"metadata\":", "{\"a\":", "0", "}", ",\"packages\""},
    {"\"deps\":[{", "\"deps\":[{\"unknown\":", "{\"a\":", "0", "}", ","},
    {"\"cfg(unix)\"", "\"cfg(", "not(", "unix", ")", ")\""},
    {"{\"kind\"", "{\"unknown\":", "{\"a\":", "0", "}", ",\"kind\""},
};

static uint8_t bytes[2][LONGEST];

static void put(struct text *whole, struct text more) {
    if (whole->length + more.length > LONGEST)
        stop("the document is too long");
    memcpy((uint8_t *)whole->at + whole->length, more.at, more.length);
    whole->length += more.length;
}

/* The text, in these bytes, with each such part replaced. */
static struct text nested(uint8_t *at, struct text it, const struct nest *nest, size_t times) {
    struct text whole = {at, 0};
    for (const uint8_t *end = it.at + it.length, *found; it.at < end; it.length = (size_t)(end - it.at)) {
        found = memmem(it.at, it.length, nest->part, strlen(nest->part));
        put(&whole, (struct text){it.at, found == NULL ? it.length : (size_t)(found - it.at)});
        it.at = found == NULL ? end : found + strlen(nest->part);
        if (found == NULL)
            break;
        put(&whole, text_of(nest->front));
        for (size_t i = 0; i < times; i++)
            put(&whole, text_of(nest->open));
        put(&whole, text_of(nest->inner));
        for (size_t i = 0; i < times; i++)
            put(&whole, text_of(nest->close));
        put(&whole, text_of(nest->back));
    }
    return whole;
}

/* ---- calls */

static size_t calls, most, statuses[KRATES_MEMORY + 1];

static void *run(void *question) {
    statuses[tell_whole(question, 1024).status]++;
    return NULL;
}

/* Makes a call on a thread of its own: what is below its stack may not be touched. */
static void make(struct question it) {
    enum { FILLED = 0xa5 };
    size_t page = (size_t)sysconf(_SC_PAGESIZE), unused = 0;
    uint8_t *below = mmap(NULL, page + KRATES_STACK, PROT_READ | PROT_WRITE, MAP_PRIVATE | MAP_ANONYMOUS, -1, 0), *stack = below + page;
    pthread_attr_t attributes;
    pthread_t thread;
    if (below == MAP_FAILED || mprotect(below, page, PROT_NONE) != 0)
        stop("there is no memory");
    memset(stack, FILLED, KRATES_STACK);
    if (pthread_attr_init(&attributes) != 0 || pthread_attr_setstack(&attributes, stack, KRATES_STACK) != 0 ||
        pthread_create(&thread, &attributes, run, &it) != 0 || pthread_join(thread, NULL) != 0)
        stop("there is no thread");
    while (stack[unused] == FILLED)
        unused++;
    if (KRATES_STACK - unused > most)
        most = KRATES_STACK - unused;
    calls++;
    munmap(below, page + KRATES_STACK);
}

static void make_all(struct text document, struct text certificate) {
    struct text none = text_of("");
    make((struct question){LIST, document, none, none});
    make((struct question){GRAPH, document, none, none});
    make((struct question){WHY, document, none, text_of("path+file:///w/b#0.1.0")});
    make((struct question){CHECK, document, none, certificate});
}

int main(int count, char **names) {
    if (count != 2)
        return 2;
    struct text document = read_file(names[1]);
    struct text certificate = text_of("{\"kind\":\"closed\",\"setting\":[],\"facts\":[]}");
    for (size_t i = 0; i < sizeof nests / sizeof *nests; i++)
        for (size_t times = 110; times < 130; times++)
            make_all(nested(bytes[0], document, &nests[i], times), nested(bytes[1], certificate, &nests[i], times));
    make_all(nested(bytes[0], document, &nests[4], 10000), certificate);
    printf("%zu calls on %d KiB of stack: %zu KiB were used at most\n", calls, KRATES_STACK >> 10, (most + 1023) >> 10);
    return statuses[KRATES_ANSWERED] != 0 && statuses[KRATES_PARSE] != 0 && statuses[KRATES_CERTIFICATE] != 0 ? 0 : 1;
}
