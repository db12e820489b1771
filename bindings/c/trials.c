#define _DEFAULT_SOURCE
#include "trials.h"

#include <stdio.h>
#include <stdlib.h>
#include <string.h>
#include <sys/mman.h>
#include <unistd.h>

struct text text_of(const char *it) {
    return (struct text){(const uint8_t *)it, strlen(it)};
}

bool same_text(struct text a, struct text b) {
    return a.length == b.length && memcmp(a.at, b.at, a.length) == 0;
}

static bool begins_with(struct text it, struct text with) {
    return it.length >= with.length && memcmp(it.at, with.at, with.length) == 0;
}

static struct text behind(struct text it, size_t length) {
    return (struct text){it.at + length, it.length - length};
}

void stop(const char *why) {
    fprintf(stderr, "%s\n", why);
    exit(2);
}

struct text read_file(const char *name) {
    FILE *file = fopen(name, "rb");
    uint8_t *bytes = malloc(LONGEST);
    size_t length = file == NULL || bytes == NULL ? 0 : fread(bytes, 1, LONGEST, file);
    if (length == 0 || length == LONGEST)
        stop(name);
    fclose(file);
    return (struct text){bytes, length};
}

/* ---- calls */

/* How the last one ended. */
static struct told last;

void fail(const struct question *it, const char *why) {
    static const char *calls[] = {"list", "graph", "why", "check"};
    const struct text texts[] = {it->document, it->options, it->more, last.text};
    for (size_t i = 0; i < sizeof texts / sizeof *texts; i++)
        fprintf(stderr, "%.*s\n---- %zu bytes\n", (int)texts[i].length, (const char *)texts[i].at, texts[i].length);
    fprintf(stderr, "%s of these (document, options, id or certificate, what was told), status %u: %s\n", calls[it->call],
            last.status, why);
    exit(1);
}

/* The end of the buffer of this number: it has LONGEST bytes in front, and a page behind that nobody may touch. */
static uint8_t *end_of(size_t number) {
    static uint8_t *ends[4];
    if (ends[number] == NULL) {
        size_t page = (size_t)sysconf(_SC_PAGESIZE);
        void *at = mmap(NULL, LONGEST + page, PROT_READ | PROT_WRITE, MAP_PRIVATE | MAP_ANONYMOUS, -1, 0);
        if (at == MAP_FAILED || mprotect((uint8_t *)at + LONGEST, page, PROT_NONE) != 0)
            stop("there is no memory");
        ends[number] = (uint8_t *)at + LONGEST;
    }
    return ends[number];
}

static const uint8_t *at_end(size_t number, struct text it) {
    return it.length == 0 ? end_of(number) : memcpy(end_of(number) - it.length, it.at, it.length);
}

static struct krates_answer made(const struct question *it, uint8_t *room, size_t length) {
    const uint8_t *document = at_end(0, it->document), *options = at_end(1, it->options), *more = at_end(2, it->more);
    switch (it->call) {
    case LIST:
        return krates_list(document, it->document.length, options, it->options.length, room, length);
    case GRAPH:
        return krates_graph(document, it->document.length, options, it->options.length, room, length);
    case WHY:
        return krates_why(document, it->document.length, options, it->options.length, more, it->more.length, room, length);
    default:
        return krates_check(document, it->document.length, options, it->options.length, more, it->more.length, room, length);
    }
}

struct told tell(const struct question *it, size_t length) {
    enum { FILLED = 0xa5 };
    uint8_t *room = memset(end_of(3) - length, FILLED, length);
    struct krates_answer answer = made(it, room, length);
    size_t written = answer.status < KRATES_TOO_SHORT ? answer.length : 0, left = length - written;
    if (answer.status > KRATES_MEMORY || written > length)
        fail(it, "there is no such status, or no such length");
    if (answer.status == KRATES_TOO_SHORT ? answer.length <= length : answer.status == KRATES_MEMORY && answer.length != 0)
        fail(it, "the length isn't that of the status");
    if (left != 0 && (room[written] != FILLED || memcmp(room + written, room + written + 1, left - 1) != 0))
        fail(it, "something was written behind the length");
    return last = (struct told){answer.status, answer.length, {room, written}};
}

struct told tell_whole(const struct question *it, size_t length) {
    struct told told = tell(it, length);
    if (told.status != KRATES_TOO_SHORT)
        return told;
    if (told.length > LONGEST)
        fail(it, "the text is too long for a trial");
    length = told.length;
    told = tell(it, length);
    if (told.status >= KRATES_TOO_SHORT || told.length != length)
        fail(it, "it doesn't fit the room that was asked for");
    return told;
}

/* ---- texts that are made */

static uint8_t bytes[1 << 23];
static size_t used;

static void put(uint8_t byte) {
    if (used == sizeof bytes)
        stop("the texts are too long");
    bytes[used++] = byte;
}

static void put_bytes(struct text it) {
    for (size_t i = 0; i < it.length; i++)
        put(it.at[i]);
}

static void put_escape(const char *form, uint32_t number) {
    char escape[16];
    snprintf(escape, sizeof escape, form, number);
    put_bytes(text_of(escape));
}

static void put_string(struct text it) {
    put('"');
    for (size_t i = 0; i < it.length; i++) {
        if (it.at[i] < ' ' || it.at[i] == '"' || it.at[i] == '\\')
            put_escape("\\u%04x", it.at[i]);
        else
            put(it.at[i]);
    }
    put('"');
}

/* The bytes of the first character, in UTF-8. */
static struct text first_character(struct text it) {
    size_t length = it.at[0] < 0x80 ? 1 : it.at[0] < 0xe0 ? 2 : it.at[0] < 0xf0 ? 3 : 4;
    return (struct text){it.at, length < it.length ? length : it.length};
}

static uint32_t number_of(struct text character) {
    uint32_t number = character.length == 1 ? character.at[0] : character.at[0] & (0x7f >> character.length);
    for (size_t i = 1; i < character.length; i++)
        number = number << 6 | (character.at[i] & 0x3f);
    return number;
}

/* Whether the character of this number ends a line, moves the cursor or turns the direction. */
static bool is_hidden(uint32_t number) {
    return number < 0x20 || (number >= 0x7f && number <= 0x9f) || number == 0x61c || number == 0x200e || number == 0x200f ||
           (number >= 0x2028 && number <= 0x202e) || (number >= 0x2066 && number <= 0x2069);
}

/* Puts a text as the library shows it. */
static void put_shown(struct text it) {
    while (it.length > 0) {
        struct text character = first_character(it);
        uint32_t number = number_of(character);
        if (is_hidden(number) || begins_with(it, text_of("\\u{")))
            put_escape("\\u{%x}", number);
        else
            put_bytes(character);
        it = behind(it, character.length);
    }
}

/* How a text is put into a form: as it is; as a string of JSON, where ' stands for " in the form; or as the library shows it. */
enum manner { AS_IT_IS, AS_JSON, AS_SHOWN };

/* A form, with the text of its number in the place of each `$0` to `$9`. */
static struct text filled(const char *form, enum manner manner, const struct text *texts) {
    static void (*const writers[])(struct text) = {put_bytes, put_string, put_shown};
    size_t start = used;
    for (; *form != '\0'; form++) {
        if (*form == '$')
            writers[manner](texts[*++form - '0']);
        else
            put(manner == AS_JSON && *form == '\'' ? '"' : (uint8_t)*form);
    }
    return (struct text){bytes + start, used - start};
}

/* ---- the lines of the library */

/* What is in front of the next byte, and that byte. */
static struct text before(struct text *rest, const char *ends) {
    struct text front = {rest->at, 0};
    while (front.length < rest->length && strchr(ends, rest->at[front.length]) == NULL)
        front.length++;
    *rest = behind(*rest, front.length + (front.length < rest->length));
    return front;
}

/* A number, and the byte behind it. */
static size_t number(struct text *rest) {
    return strtoull((const char *)before(rest, " :,\n").at, NULL, 10);
}

/* A text after its length, and the byte behind it. */
static struct text measured(struct text *rest) {
    size_t length = number(rest);
    struct text it = {rest->at, length};
    *rest = behind(*rest, length + 1);
    return it;
}

/* ---- facts */

static void add(struct facts *facts, const char *said, const char *written, const struct text *texts) {
    if (facts->count == sizeof facts->fact / sizeof *facts->fact)
        stop("there are too many facts");
    facts->fact[facts->count++] =
        (struct fact){filled(said, AS_IT_IS, texts), filled(written, AS_JSON, texts), filled(said, AS_SHOWN, texts)};
}

/* A node: the name of a crate or of a feature, and the number of the crate. */
struct node {
    struct text name;
    size_t crate;
};

static void add_kept(struct facts *facts, struct text parent, struct text child, struct text *rest) {
    struct text kind = before(rest, " \n"), suffix = filled(" ($0)", AS_IT_IS, &kind);
    bool is_normal = same_text(kind, text_of("normal")), is_for_all = rest->at[-1] == '\n';
    const struct text texts[] = {parent, child, kind, is_normal ? text_of("") : suffix, is_for_all ? kind : measured(rest)};
    if (is_for_all)
        add(facts, "kept $0 -> $1$3", "{'fact':'kept','parent':$0,'child':$1,'kind':$2,'cfg':null}", texts);
    else
        add(facts, "kept $0 -> $1$3 '$4'", "{'fact':'kept','parent':$0,'child':$1,'kind':$2,'cfg':$4}", texts);
}

static void add_edge(struct facts *facts, const struct node *nodes, struct text *rest) {
    size_t source = number(rest), target = number(rest);
    struct text parent = nodes[source].name, child = nodes[nodes[target].crate].name;
    if (!same_text(before(rest, " \n"), text_of("feature"))) {
        add_kept(facts, parent, child, rest);
    } else if (nodes[source].crate == source) {
        const struct text texts[] = {nodes[target].name, child, parent};
        add(facts, "toggled $0 of $1 by $2", "{'fact':'toggled','parent':$2,'child':$1,'name':$0}", texts);
    }
}

void read_facts(struct facts *facts, struct text rest) {
    static struct node nodes[1 << 12];
    size_t count = 0;
    facts->crates = facts->count = used = 0;
    while (rest.length > 0) {
        struct text line = before(&rest, " ");
        if (same_text(line, text_of("edge"))) {
            add_edge(facts, nodes, &rest);
            continue;
        }
        bool is_crate = same_text(line, text_of("crate"));
        size_t crate = is_crate ? count : number(&rest);
        nodes[count] = (struct node){measured(&rest), crate};
        const struct text texts[] = {nodes[count].name, nodes[crate].name};
        if (is_crate)
            add(facts, "crate $0", "{'fact':'crate','krate':$0}", texts);
        else
            add(facts, "feature $0 of $1", "{'fact':'feature','krate':$1,'name':$0}", texts);
        if (is_crate && rest.at[-1] != '\n')
            before(&rest, "\n");
        facts->crates += is_crate;
        if (++count == sizeof nodes / sizeof *nodes)
            stop("there are too many nodes");
    }
}

struct text id_of(const struct fact *crate) {
    return behind(crate->said, strlen("crate "));
}

/* The fact that a text begins with, the longest where there are several. */
static const struct fact *fact_at(const struct facts *facts, struct text it) {
    const struct fact *found = NULL;
    for (size_t i = 0; i < facts->count; i++)
        if (begins_with(it, facts->fact[i].said) && (found == NULL || facts->fact[i].said.length > found->said.length))
            found = &facts->fact[i];
    return found;
}

/* ---- certificates and verdicts */

struct text closed_certificate(const struct facts *facts, const char *setting) {
    struct text whole = filled("{\"kind\":\"closed\",\"setting\":[$0],\"facts\":[", AS_IT_IS, (struct text[]){text_of(setting)});
    for (size_t i = 0; i < facts->count; i++)
        filled(i == 0 ? "$0" : ",$0", AS_IT_IS, &facts->fact[i].written);
    filled("]}", AS_IT_IS, NULL);
    return (struct text){whole.at, (size_t)(bytes + used - whole.at)};
}

struct text derivation_certificate(const struct facts *facts, const char *setting, struct text rest, size_t *steps) {
    struct text whole = filled("{\"kind\":\"derivation\",\"setting\":[$0],\"steps\":[", AS_IT_IS, (struct text[]){text_of(setting)});
    for (*steps = 0; rest.length > 0; ++*steps) {
        before(&rest, " ");
        before(&rest, " ");
        struct text rule = before(&rest, ":");
        const struct fact *fact = fact_at(facts, behind(rest, 1));
        if (fact == NULL)
            return text_of("");
        rest = behind(rest, 1 + fact->said.length);
        struct text uses = before(&rest, "\n");
        const struct text texts[] = {rule, uses.length == 0 ? uses : behind(uses, strlen(" from ")), fact->written};
        filled(*steps == 0 ? "{\"rule\":$0,\"uses\":[$1],\"fact\":$2}" : ",{\"rule\":$0,\"uses\":[$1],\"fact\":$2}", AS_IT_IS, texts);
    }
    filled("]}", AS_IT_IS, NULL);
    return (struct text){whole.at, (size_t)(bytes + used - whole.at)};
}

struct text closed_verdict(size_t crates) {
    char number[24];
    snprintf(number, sizeof number, "%zu", crates);
    const struct text texts[] = {text_of(crates == 1 ? "this" : "these"), text_of(number), text_of(crates == 1 ? "crate" : "crates")};
    return filled("holds: nothing but $0 $1 $2 can be reached\n", AS_IT_IS, texts);
}

struct text derivation_verdict(const struct facts *facts, const struct fact *last, size_t steps) {
    char number[24];
    snprintf(number, sizeof number, "%zu", steps);
    const struct text texts[] = {last->shown, text_of(number), text_of(steps == 1 ? "step" : "steps")};
    return filled(last < facts->fact + facts->crates ? "holds: $0 is kept, $1 $2\n" : "holds: $0 follows, $1 $2\n", AS_IT_IS, texts);
}

/* Whether it says that one of these facts follows, in as many steps as it says. */
static bool is_of_fact(const struct facts *facts, struct text verdict) {
    struct text fact = verdict;
    before(&fact, " ");
    for (size_t i = 0; i < facts->count; i++) {
        struct text rest = fact;
        if (!begins_with(rest, facts->fact[i].shown))
            continue;
        rest = behind(rest, facts->fact[i].shown.length);
        before(&rest, ",");
        before(&rest, " ");
        if (same_text(verdict, derivation_verdict(facts, &facts->fact[i], number(&rest))))
            return true;
    }
    return false;
}

bool is_true(const struct facts *facts, struct text verdict) {
    struct text rest = verdict;
    for (int words = 0; words < 4; words++)
        before(&rest, " ");
    size_t crates = number(&rest);
    return is_of_fact(facts, verdict) || (crates >= facts->crates && same_text(verdict, closed_verdict(crates)));
}
