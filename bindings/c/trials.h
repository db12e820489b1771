/* What the programs that try the library share: calls in rooms of any length, with nothing behind each buffer, and certificates made of
 * what the library itself says of a document. What shouldn't be ends the program with status 1.
 */
#ifndef KRATES_TRIALS_H
#define KRATES_TRIALS_H

#include "krates.h"

struct text {
    const uint8_t *at;
    size_t length;
};

struct text text_of(const char *it);
bool same_text(struct text a, struct text b);

/* Says why nothing can be tried, and ends the program with status 2. */
_Noreturn void stop(const char *why);

/* The bytes of a file, up to LONGEST. */
struct text read_file(const char *name);

enum { LONGEST = 1 << 18 };

/* A call, and what it is given; the last is an id or a certificate. */
struct question {
    enum { LIST, GRAPH, WHY, CHECK } call;
    struct text document, options, more;
};

/* Reports what is wrong with how a call ended. */
_Noreturn void fail(const struct question *it, const char *why);

/* How a call ended, and what it handed over. */
struct told {
    enum krates_status status;
    size_t length; /* of the text, or the room that is needed */
    struct text text;
};

/* Makes a call in a room of this length, at the end of which nothing may be touched, as at the end of all that it is given. It has
 * to end with a status that it may have, and past what was handed over the room has to be as it was. The text stays until the next call.
 */
struct told tell(const struct question *it, size_t room);

/* The same, once more where the room was too short, then with the one that is needed. */
struct told tell_whole(const struct question *it, size_t room);

/* What a graph says, each fact as the library says it, as a certificate writes it, and as a verdict shows it; first that each crate is
 * kept, in their order. */
struct fact {
    struct text said, written, shown;
};

struct facts {
    size_t crates, count;
    struct fact fact[1 << 12];
};

/* Reads the lines of a graph. All texts that these functions make stay until the next graph is read. */
void read_facts(struct facts *facts, struct text lines);

/* The id of a crate. */
struct text id_of(const struct fact *crate);

/* The certificate of all facts; and that of the derivation whose lines `krates_why` gave, with the number of its steps, or an empty text
 * where one of its facts isn't among these. The setting is the inside of a list in JSON. */
struct text closed_certificate(const struct facts *facts, const char *setting);
struct text derivation_certificate(const struct facts *facts, const char *setting, struct text lines, size_t *steps);

/* What is said of a certificate that holds: that there are only these crates; and that a derivation of so many steps ends in this fact. */
struct text closed_verdict(size_t crates);
struct text derivation_verdict(const struct facts *facts, const struct fact *last, size_t steps);

/* Whether a verdict is true of the document with these facts: it names one of them, or as many crates as they have, or more. */
bool is_true(const struct facts *facts, struct text verdict);

#endif
