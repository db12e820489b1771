/* krates, proved: which crates of a document of `cargo metadata` are needed, answered by the static library of `crates/krates_c`.
 *
 * Each call takes a document, options and, where it says so, one thing more, and writes its answer to the room that the caller
 * lends. The library keeps no pointer, and any number of threads may call it at once.
 *
 * It can't check a pointer or a length, so that these have to be right, and nothing is promised of a call otherwise:
 *
 *   - A pointer goes with the length of what it points to in bytes, which is at most PTRDIFF_MAX, as that of any object. It is never
 *     null; where the length is 0, any other pointer will do.
 *   - What is only read may overlap, or be the same, and nobody writes there until the call returns.
 *   - The room overlaps nothing else, and nobody else uses it until then.
 *
 * A call needs up to KRATES_STACK bytes of stack, whatever it is given: of what was measured, documents that cargo writes took 64 KiB,
 * and JSON that is nested 127 deep took 149 KiB; what is deeper is refused. On a thread that has less a call may end the process, at the
 * guard page of the thread's stack. The main thread mostly has 8 MiB, a thread of musl 128 KiB where nothing else is asked for.
 *
 * The options are words, one in each line: `--workspace`; `--ignore-kind` and `normal`, `build` or `dev`; `--target` and a triple;
 * `--exclude` and a package specification; `--all-named`. Seven targets are known by their triple, which docs/GUIDE.md lists: of any
 * other triple nothing is known, so that what is under a cfg like `cfg(unix)` is left out.
 *
 * The archive takes its memory by the three functions at the end of this file. Link the toolchain's `liblibc_c.a`, which has
 * them over malloc, or your own.
 */
#ifndef KRATES_H
#define KRATES_H

#include <stdbool.h>
#include <stddef.h>
#include <stdint.h>

#ifdef __cplusplus
extern "C" {
#endif

/* The stack that a call needs at most, in bytes. */
enum { KRATES_STACK = 256 << 10 };

/* How a call ended. */
enum krates_status {
    KRATES_ANSWERED = 0,    /* the answer stands at the front of the room */
    KRATES_OPTIONS = 1,     /* the options are not those of a setting */
    KRATES_ID = 2,          /* the text is not a package id */
    KRATES_UTF8 = 3,        /* the document is not UTF-8 */
    KRATES_PARSE = 4,       /* the text is not a document */
    KRATES_BUILD = 5,       /* the document has no graph under the setting */
    KRATES_NOT_KEPT = 6,    /* the crate is not kept */
    KRATES_CERTIFICATE = 7, /* the certificate does not hold */
    KRATES_TOO_SHORT = 8,   /* the room is too short: nothing was written, and the length is the room that is needed */
    KRATES_MEMORY = 9,      /* memory ran out: nothing was written */
};

/* Of 1 to 7 the room holds a text that says why: one line in UTF-8, with no line feed at its end. What others wrote is shown in it, a
 * control character by its number, as `\u{1b}`. Past `length` the room is always as it was. */
struct krates_answer {
    uint32_t status;
    size_t length;
};

/* A line for each package, by id: `+ ID` for those that are kept, and then `- ID` for the others. The ids stand there as they are, and a
 * document of cargo has none with a line feed; where one may have, ask `krates_graph`, whose texts come with their lengths. */
struct krates_answer krates_list(
    const uint8_t *document, size_t document_length,
    const uint8_t *options, size_t options_length,
    uint8_t *room, size_t room_length);

/* The graph: a line for each node, by number from 0, and then a line for each edge, by number from 0. A TEXT is a length in bytes, a
 * colon and that many bytes.
 *
 *     crate TEXT ENTRY..                               a kept crate, by its id; an entry for each declared dependency of its
 *                                                      package: a space and the number of the crate that it means, or ` -`
 *     feature CRATE TEXT                               an enabled feature: the number of its crate, and its name
 *     edge SOURCE TARGET dep KIND [TEXT]               a crate needs a crate; TEXT is the target that the edge is for
 *     edge SOURCE TARGET depfeature KIND [TEXT]        a crate needs a feature of a crate
 *     edge SOURCE TARGET feature                       a feature leads somewhere, or a crate toggles a feature
 */
struct krates_answer krates_graph(
    const uint8_t *document, size_t document_length,
    const uint8_t *options, size_t options_length,
    uint8_t *room, size_t room_length);

/* A derivation of the crate with this package id, one step in each line, as `krates-list --why ID` writes it. Its ids and names stand
 * there as they are. */
struct krates_answer krates_why(
    const uint8_t *document, size_t document_length,
    const uint8_t *options, size_t options_length,
    const uint8_t *id, size_t id_length,
    uint8_t *room, size_t room_length);

/* What a certificate says, in a line, where it holds of the document under exactly these options: it is judged without a search. */
struct krates_answer krates_check(
    const uint8_t *document, size_t document_length,
    const uint8_t *options, size_t options_length,
    const uint8_t *certificate, size_t certificate_length,
    uint8_t *room, size_t room_length);

/* What the archive calls for memory: a block of this size, with this alignment, a power of two up to 16, even where the size is 0. Of a
 * block whose size changes, `kept` bytes count. Where there is no memory, nothing changes, and usually the call that asked ends as
 * KRATES_MEMORY. */
struct krates_block {
    bool is_there;
    void *at; /* never null */
};

struct krates_block rattle_alloc(size_t size, size_t align);
struct krates_block rattle_realloc(void *at, size_t kept, size_t size, size_t align);
void rattle_dealloc(void *at);

#ifdef __cplusplus
}
#endif

#endif
