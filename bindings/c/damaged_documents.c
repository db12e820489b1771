/* Passes damaged documents, options, ids and certificates to the library, in one process. What it says has to agree: of a document that has
 * a graph, the list has its crates, each crate has a derivation, and the certificates of the derivation and of all facts hold. Where a
 * damaged certificate holds, its verdict has to be true of the graph.
 *
 *     damaged_documents COUNT SEED DOCUMENT..
 *
 * What is damaged is one of the documents that are named, or what was made of it, with some of its bytes, stretches or strings changed,
 * taken out, doubled or exchanged; the seed says which. The last line counts how the calls ended.
 */
#include "trials.h"

#include <stdio.h>
#include <stdlib.h>
#include <string.h>

static struct text documents[64];
static size_t known;

static uint64_t state;

/* A number below the bound (xorshift64*), or 0. */
static size_t below(size_t bound) {
    state ^= state >> 12;
    state ^= state << 25;
    state ^= state >> 27;
    return bound == 0 ? 0 : (size_t)((state * 2685821657736338717u) >> 33) % bound;
}

static size_t least(size_t a, size_t b) {
    return a < b ? a : b;
}

/* ---- damage */

/* Puts bytes in the place of a stretch, where there is room for them, and returns the new length. */
static size_t put(uint8_t *bytes, size_t length, size_t at, size_t taken, struct text more) {
    if (length - taken + more.length > LONGEST)
        return length;
    memmove(bytes + at + more.length, bytes + at + taken, length - at - taken);
    memmove(bytes + at, more.at, more.length);
    return length - taken + more.length;
}

/* The next string from a place on; what is between two, where the place is in one. It is empty where there is none. */
static struct text string_from(struct text it, size_t at) {
    const uint8_t *end = it.at + it.length, *start = memchr(it.at + at, '"', it.length - at);
    const uint8_t *last = start == NULL ? NULL : memchr(start + 1, '"', (size_t)(end - start - 1));
    return last == NULL ? (struct text){it.at + at, 0} : (struct text){start + 1, (size_t)(last - start - 1)};
}

/* The text, elsewhere. */
static struct text copied(struct text it) {
    static uint8_t copy[LONGEST];
    return (struct text){memcpy(copy, it.at, it.length), it.length};
}

/* Damages a text in place, and returns its new length. */
static size_t damage(uint8_t *bytes, size_t length) {
    static const char *pieces[] = {"\"", "{", "}", "[", "]", ",", ":", "null", "-1", "\\u0000", "\\n", "\xff", "#", "@", "?", "/",
                                   "dep:", "default", "cfg(", ")", "\n", "0.1.0", "true", "\\ud800", "1e999", "\r", " "};
    size_t at = below(length), part = least(1 + below(40), length - at);
    struct text whole = {bytes, length}, other = documents[below(known)], string = string_from(whole, at);
    switch (below(8)) {
    case 0:
        bytes[at] ^= (uint8_t)(1u << below(8));
        return length;
    case 1: /* a stretch is taken out */
        return put(bytes, length, at, part, text_of(""));
    case 2: /* a stretch is doubled */
        return put(bytes, length, at, 0, copied((struct text){bytes + at, part}));
    case 3: /* a stretch of another document */
        return put(bytes, length, at, part, (struct text){other.at + below(other.length - 40), part});
    case 4: /* a piece is put in */
        return put(bytes, length, at, 0, text_of(pieces[below(sizeof pieces / sizeof *pieces)]));
    case 5: /* the end is cut off */
        return below(8) == 0 ? at : length;
    default: /* a string stands in the place of another */
        other = below(4) == 0 ? other : whole;
        other = string_from(other, below(other.length));
        return put(bytes, length, (size_t)(string.at - bytes), string.length, copied(other));
    }
}

/* The text, damaged so many times. */
static struct text damaged(uint8_t *bytes, struct text it, size_t times) {
    struct text whole = {memcpy(bytes, it.at, it.length), it.length};
    for (; times > 0 && whole.length > 0; times--)
        whole.length = damage(bytes, whole.length);
    return whole;
}

/* ---- calls */

static size_t statuses[KRATES_MEMORY + 1];

/* Makes a call, in a room that mostly suffices. */
static struct told ask(const struct question *it) {
    struct told told = tell_whole(it, below(3) == 0 ? below(400) : least(it->document.length + 1024, LONGEST));
    if (told.status >= KRATES_TOO_SHORT)
        fail(it, "memory ran out");
    statuses[told.status]++;
    return told;
}

/* Options, and the words of a certificate that is made under them. */
static const char *settings[][2] = {
    {"", ""},
    {"--ignore-kind\nbuild\n", "\"--ignore-kind=build\""},
    {"--workspace\n--all-named\n--target\nx86_64-unknown-linux-gnu\n--exclude\nc\n",
     "\"--workspace\",\"--all-named\",\"--exclude=c\",\"--target=x86_64-unknown-linux-gnu\""},
};

static struct facts facts;

/* Whether the lines are `+ ` and the id of each crate, and after them others with `- `. */
static bool lists_crates(struct text lines) {
    for (size_t i = 0; i < facts.crates; i++) {
        struct text id = id_of(&facts.fact[i]);
        if (lines.length < id.length + 3 || memcmp(lines.at, "+ ", 2) != 0 || memcmp(lines.at + 2, id.at, id.length) != 0)
            return false;
        lines = (struct text){lines.at + id.length + 3, lines.length - id.length - 3};
    }
    return lines.length == 0 || memcmp(lines.at, "- ", 2) == 0;
}

/* The last certificates that were made, each in bytes of its own. */
static struct text certificates[2];

static struct text kept(size_t number, struct text certificate) {
    static uint8_t bytes[2][LONGEST];
    if (certificate.length > LONGEST)
        stop("the certificate is too long");
    certificates[number] = (struct text){memcpy(bytes[number], certificate.at, certificate.length), certificate.length};
    return certificates[number];
}

/* Checks a certificate of what the document has: this has to be the verdict. */
static void check(struct question it, struct text certificate, struct text verdict) {
    it.call = CHECK;
    it.more = certificate;
    struct told told = ask(&it);
    if (told.status != KRATES_ANSWERED || !same_text(told.text, verdict))
        fail(&it, "the certificate has another verdict");
}

static size_t held, unread;

/* Checks the list, a derivation and the certificates of a document that has a graph. */
static void agree(struct question it, const char *setting, bool is_whole) {
    const struct fact *crate = &facts.fact[below(facts.crates)];
    size_t steps;
    it.call = WHY;
    it.more = id_of(crate);
    struct told told = ask(&it);
    if (told.status != KRATES_ANSWERED)
        fail(&it, "a crate isn't explained");
    struct text derivation = derivation_certificate(&facts, setting, told.text, &steps);
    if (derivation.length != 0)
        check(it, kept(0, derivation), derivation_verdict(&facts, crate, steps));
    else if (is_whole)
        fail(&it, "a step isn't a fact of the graph");
    unread += derivation.length == 0;
    check(it, kept(1, closed_certificate(&facts, setting)), closed_verdict(facts.crates));
}

/* Checks a damaged certificate, of this document or of one before. Of a document without a graph nothing but a step may hold, unless
 * nothing at all is needed. */
static void check_damaged(struct question it, bool is_built) {
    static uint8_t bytes[LONGEST];
    it.call = CHECK;
    it.more = damaged(bytes, certificates[below(2)], 1 + below(3));
    struct told told = ask(&it);
    if (told.status != KRATES_ANSWERED)
        return;
    held++;
    bool is_closed = memcmp(told.text.at, "holds: nothing", 14) == 0;
    if (is_built && !is_true(&facts, told.text))
        fail(&it, "the verdict isn't true");
    it.call = GRAPH;
    if (!is_built && is_closed && !same_text(ask(&it).text, text_of("no root crates available")))
        fail(&it, "a set is closed, though there is no graph");
}

/* Tries damaged options, and a damaged id. */
static void try_words(void) {
    static uint8_t options[LONGEST], id[LONGEST];
    struct text words = text_of(settings[below(3)][0]), named = text_of("path+file:///w/b#0.1.0");
    struct question it = {below(4), documents[below(known)], damaged(options, words, 1 + below(2)), damaged(id, named, below(3))};
    ask(&it);
}

static void one_more(void) {
    static uint8_t bytes[LONGEST];
    size_t setting = below(3), times = below(5);
    struct text document = damaged(bytes, documents[below(known)], times);
    struct question it = {GRAPH, document, text_of(settings[setting][0]), text_of("")};
    struct told graph = ask(&it);
    bool is_built = graph.status == KRATES_ANSWERED;
    if (is_built)
        read_facts(&facts, graph.text);
    it.call = LIST;
    struct told list = ask(&it);
    if (list.status != graph.status || (is_built && !lists_crates(list.text)))
        fail(&it, "the list has other crates than the graph");
    if (is_built)
        agree(it, settings[setting][1], times == 0);
    if (certificates[0].length != 0)
        check_damaged(it, is_built);
    if (below(4) == 0)
        try_words();
}

int main(int words, char **word) {
    if (words < 4) {
        fprintf(stderr, "usage: damaged_documents COUNT SEED DOCUMENT..\n");
        return 2;
    }
    for (int i = 3; i < words && known < sizeof documents / sizeof *documents; i++)
        documents[known++] = read_file(word[i]);
    state = strtoull(word[2], NULL, 10) * 2 + 1;
    for (unsigned long long left = strtoull(word[1], NULL, 10); left > 0; left--)
        one_more();
    static const char *names[] = {"answered", "options", "id", "not UTF-8", "no document", "not built", "not kept", "doesn't hold"};
    bool is_each = held != 0;
    for (size_t i = 0; i <= KRATES_CERTIFICATE; i++) {
        printf("%zu %s, ", statuses[i], names[i]);
        is_each = is_each && statuses[i] != 0;
    }
    printf("%zu damaged certificates hold, %zu derivations unread\n", held, unread);
    return is_each ? 0 : 1;
}
