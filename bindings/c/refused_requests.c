/* Refuses requests for memory: of each call the first, then the second, and so on until it makes no more, that one alone and all from
 * it on; and then some at random. What a call says has to be what it says with ample memory, or that memory ran out. Past what was
 * handed over the room has to be as it was, and each block has to be given back.
 *
 *     refused_requests DOCUMENT..
 *
 * The archive's three functions for memory are here, instead of the toolchain's. A block whose size changes always moves, with no more
 * than has to be kept, and what is given back is overwritten.
 */
#include "trials.h"

#include <stdio.h>
#include <stdlib.h>
#include <string.h>

/* ---- memory */

static size_t requests, refused, blocks;

/* Which requests are refused: none; one; all from one on; about every sixteenth. */
static enum { NONE, ONE, FROM, SOME } refusing;
static size_t place;

static bool is_refused(void) {
    static uint32_t state = 1;
    state = state * 1664525 + 1013904223;
    requests++;
    bool is_it = refusing == ONE ? requests == place : refusing == FROM ? requests >= place : refusing == SOME && state >> 28 == 0;
    refused += is_it;
    return is_it;
}

/* In front of a block is its size, in as many bytes as the strictest alignment. */
enum { HEAD = 16, SPOILT = 0x5a };

struct krates_block rattle_alloc(size_t size, size_t align) {
    (void)align;
    uint8_t *at = is_refused() ? NULL : malloc(HEAD + size);
    if (at == NULL)
        return (struct krates_block){false, &blocks};
    blocks++;
    memcpy(at, &size, sizeof size);
    return (struct krates_block){true, memset(at + HEAD, SPOILT, size)};
}

void rattle_dealloc(void *at) {
    size_t size;
    memcpy(&size, (uint8_t *)at - HEAD, sizeof size);
    memset(at, SPOILT, size);
    free((uint8_t *)at - HEAD);
    blocks--;
}

struct krates_block rattle_realloc(void *at, size_t kept, size_t size, size_t align) {
    struct krates_block block = rattle_alloc(size, align);
    if (block.is_there) {
        memcpy(block.at, at, kept);
        rattle_dealloc(at);
    }
    return block;
}

/* ---- calls */

static size_t calls, made, ended;

/* Makes a call while requests are refused as it is set: it has to say what it said with ample memory, or that memory ran out. */
static void make(const struct question *it, size_t room, struct told ample, struct text text) {
    requests = refused = 0;
    struct told told = tell(it, room);
    if (blocks != 0)
        fail(it, "a block wasn't given back");
    if (refused != 0 && told.status == KRATES_MEMORY)
        ended++;
    else if (told.status != ample.status || told.length != ample.length || !same_text(told.text, text))
        fail(it, "another answer than with ample memory");
    made += refused;
}

/* Refuses each request of a call in turn, alone or with all behind it, and then some at random. */
static void starve(const struct question *it, size_t room, bool is_alone) {
    static uint8_t bytes[LONGEST];
    refusing = NONE;
    struct told ample = tell(it, room);
    struct text text = {memcpy(bytes, ample.text.at, ample.text.length), ample.text.length};
    calls++;
    refusing = is_alone ? ONE : FROM;
    for (place = refused = 1; refused != 0; place++)
        make(it, room, ample, text);
    refusing = SOME;
    for (int i = 0; i < 20; i++)
        make(it, room, ample, text);
}

static const char *settings[][2] = {
    {"", ""},
    {"--workspace\n--all-named\n--ignore-kind\nbuild\n--exclude\nc\n--target\nx86_64-unknown-linux-gnu\n",
     "\"--workspace\",\"--all-named\",\"--ignore-kind=build\",\"--exclude=c\",\"--target=x86_64-unknown-linux-gnu\""},
};

static size_t most_steps;

/* The certificate of the longest derivation of a crate. */
static struct text longest_derivation(struct question it, const struct facts *facts, const char *setting) {
    struct text longest = text_of("");
    it.call = WHY;
    for (size_t i = 0, most = 0, steps; i < facts->crates; i++) {
        it.more = id_of(&facts->fact[i]);
        struct text certificate = derivation_certificate(facts, setting, tell_whole(&it, 0).text, &steps);
        if (steps > most) {
            longest = certificate;
            most = steps;
        }
        most_steps = steps > most_steps ? steps : most_steps;
    }
    return longest;
}

/* Starves each call about a document that has a graph, by single requests and by all from one on: in a room that suffices, and in one that
 * lacks a byte. */
static void starve_all(struct text document, const char *const setting[2]) {
    static struct facts facts;
    struct text options = text_of(setting[0]), none = text_of("");
    const struct question graph = {GRAPH, document, options, none};
    refusing = NONE;
    read_facts(&facts, tell_whole(&graph, 0).text);
    const struct question questions[] = {
        {LIST, document, options, none},
        graph,
        {WHY, document, options, id_of(&facts.fact[facts.crates - 1])},
        {WHY, document, options, text_of("path+file:///w/z#0.1.0")},
        {WHY, document, options, text_of("z")},
        {CHECK, document, options, longest_derivation(graph, &facts, setting[1])},
        {CHECK, document, options, closed_certificate(&facts, setting[1])},
        {CHECK, document, options, text_of("{}")},
        {LIST, document, text_of("--cargo\ncargo\n"), none},
        {GRAPH, text_of("\xff"), options, none},
    };
    for (size_t i = 0; i < sizeof questions / sizeof *questions; i++) {
        refusing = NONE;
        size_t length = tell_whole(&questions[i], 0).length;
        for (size_t room = length - 1; room <= length; room++) {
            starve(&questions[i], room, true);
            starve(&questions[i], room, false);
        }
    }
}

int main(int count, char **names) {
    for (int i = 1; i < count; i++) {
        struct text document = read_file(names[i]);
        for (size_t j = 0; j < sizeof settings / sizeof *settings; j++)
            starve_all(document, settings[j]);
        free((void *)document.at);
    }
    printf("%zu calls: %zu requests refused, %zu times out of memory, otherwise as with ample memory\n", calls, made, ended);
    return ended != 0 && most_steps > 1 ? 0 : 2;
}
