/* A notary in three compartments, in C: the code that reads requests has them signed, and has no right on the key.
 *
 *     sdk/README.md says how it is compiled
 *     sdk/link examples/notary.elf examples/notary.toml > notary.wedge
 *     bin/wedge run notary.wedge
 *
 * `main` makes a gate: `sign`, whose runs may load from the tag `key` and do nothing else that is shared. It puts each
 * request into the tag `request`, and starts a child that runs `worker`, under a sheet with Read on the request, the
 * bit to append to the log, and the gate. `worker` trusts an index in the request. That of the second request leads to
 * the key: the load is denied, that child has ended, and the notary goes on.
 */
#include "notary_names.h" /* TAG_KEY, TAG_REQUEST, FD_LOG, FD_REQUESTS: sdk/names examples/notary.toml */
#include "signature.h"
#include "wedge.h"

/* A request: an index among its own words, and the words. */
struct request {
    int32_t index;
    uint32_t words[3];
};

/* ---- the compartments */

/* A run of the gate: whoever enters it chooses the word, and the maker of the gate chose the address of the key. */
WEDGE_GATE(sign, word, key)
{
    return signature((const struct key *)(uintptr_t)key, word);
}

/* Appends the line of a request to the log: its number, and a text of at most 12 letters. */
static void log_line(uint32_t number, const char *text)
{
    char line[16];
    uint32_t length = 3;

    line[0] = '0' + number % 10;
    line[1] = ':';
    line[2] = ' ';
    while (*text)
        line[length++] = *text++;
    line[length++] = '\n';
    WEDGE_MUST(wedge_append(FD_LOG, line, length));
}

/* What a child does: it has a word of the request signed, and logs the signature. The argument is the request's number,
 * which the line begins with. */
WEDGE_ENTRY(worker, number)
{
    const volatile struct request *request = wedge_declared(TAG_REQUEST);
    uint32_t word = request->words[request->index];
    struct wedge_joined run = WEDGE_MUST(wedge_enter(sign, word, WEDGE_LEND_NOTHING));
    char text[9] = "";

    if (run.end != WEDGE_END_EXITED)
        return 1;
    for (int i = 0; i < 8; i++)
        text[i] = "0123456789abcdef"[run.value >> (28 - 4 * i) & 15];
    log_line(number, text);
    return 0;
}

WEDGE_ENTRY(main, argument)
{
    volatile struct request *request = wedge_declared(TAG_REQUEST);
    struct request asked;
    uint32_t draft = WEDGE_MUST(wedge_draft()).value;

    /* The gate: Read on the key, and nothing else. */
    WEDGE_MUST(wedge_grant_tag(draft, TAG_KEY, WEDGE_READ));
    WEDGE_MUST(wedge_make_gate(draft, sign, (uintptr_t)wedge_declared(TAG_KEY), 500));

    /* The sheet of workers: Read on the request, the log, and the gate. */
    draft = WEDGE_MUST(wedge_draft()).value;
    WEDGE_MUST(wedge_grant_tag(draft, TAG_REQUEST, WEDGE_READ));
    WEDGE_MUST(wedge_grant_fd(draft, FD_LOG, WEDGE_BIT_APPEND));
    WEDGE_MUST(wedge_grant_gate(draft, sign));

    for (uint32_t number = 1; WEDGE_MUST(wedge_read(FD_REQUESTS, &asked, sizeof asked)).value == sizeof asked; number++) {
        struct wedge_joined ended;

        *request = asked;
        ended = WEDGE_MUST(wedge_join(WEDGE_MUST(wedge_create(draft, worker, number, 1000)).value));
        if (ended.end != WEDGE_END_EXITED)
            log_line(number, ended.end == WEDGE_END_DENIED ? "denied" : "stopped");
    }
    return 0;
}
