/* A key that is rotated, in C: what a gate signs with, when its sheet has Read on the key and when it has a copy.
 *
 *     sdk/README.md says how it is compiled
 *     sdk/link examples/rotate.elf examples/rotate.toml > rotate.wedge
 *     bin/wedge run rotate.wedge
 *
 * `main` makes three gates. A run of `sign_now` loads from the tag `key`, so it signs with the key that is there now. A
 * run of `sign_first` has a private copy of the tag, which was made with the gate, so it signs with the key that was
 * there first, whatever becomes of the tag. A run of `rotate` takes the next key from the source `keys`, which nobody else
 * may read, and stores it. Requests are served as in notary.c: by a child each, which may enter the first two gates, and
 * has no right on the key. After each second request `main` rotates the key. The fourth request leads its child to the
 * key: the new one is no more open to it than the old one was. Then no key is left, and the last request is signed with
 * the second key.
 */
#include "rotate_names.h" /* TAG_KEY, TAG_REQUEST, FD_KEYS, FD_LOG, FD_REQUESTS: sdk/names examples/rotate.toml */
#include "signature.h"
#include "wedge.h"

/* A request: an index among its own words, and the word. */
struct request {
    int32_t index;
    uint32_t words[1];
};

WEDGE_GATE(sign_now, word, own)
{
    return signature(wedge_declared(TAG_KEY), word);
}

WEDGE_GATE(sign_first, word, own)
{
    return signature(wedge_declared(TAG_KEY), word);
}

/* Answers whether there was a next key. A buffer never lies in a tag, so the key is read first and then stored. */
WEDGE_GATE(rotate, argument, own)
{
    volatile struct key *key = wedge_declared(TAG_KEY);
    struct key next;

    if (WEDGE_MUST(wedge_read(FD_KEYS, &next, sizeof next)).value != sizeof next)
        return 0;
    *key = next;
    return 1;
}

static void log_text(const char *text)
{
    uint32_t length = 0;

    while (text[length])
        length++;
    WEDGE_MUST(wedge_append(FD_LOG, text, length));
}

/* Has a word signed by a gate, and logs a name and the signature. */
static void log_signature(const char *name, void (*gate)(uint32_t, uint32_t), uint32_t word)
{
    struct wedge_joined run = WEDGE_MUST(wedge_enter(gate, word, WEDGE_LEND_NOTHING));
    char text[9] = "";

    for (int i = 0; i < 8; i++)
        text[i] = "0123456789abcdef"[run.value >> (28 - 4 * i) & 15];
    log_text(name);
    log_text(run.end == WEDGE_END_EXITED ? text : "stopped");
}

WEDGE_ENTRY(worker, argument)
{
    const volatile struct request *request = wedge_declared(TAG_REQUEST);
    uint32_t word = request->words[request->index];

    log_signature("now ", sign_now, word);
    log_signature(" first ", sign_first, word);
    log_text("\n");
    return 0;
}

/* Makes a gate under a sheet that has one right on the key; `rotate` may read the keys to come besides. */
static void make(void (*gate)(uint32_t, uint32_t), enum wedge_right right, uint32_t fuel)
{
    uint32_t draft = WEDGE_MUST(wedge_draft()).value;

    WEDGE_MUST(wedge_grant_tag(draft, TAG_KEY, right));
    if (gate == rotate)
        WEDGE_MUST(wedge_grant_fd(draft, FD_KEYS, WEDGE_BIT_READ));
    WEDGE_MUST(wedge_make_gate(draft, gate, 0, fuel));
}

static void serve(uint32_t draft, const struct request *asked)
{
    volatile struct request *request = wedge_declared(TAG_REQUEST);
    struct wedge_joined ended;

    *request = *asked;
    ended = WEDGE_MUST(wedge_join(WEDGE_MUST(wedge_create(draft, worker, 0, 2000)).value));
    if (ended.end != WEDGE_END_EXITED)
        log_text(ended.end == WEDGE_END_DENIED ? "denied\n" : "stopped\n");
}

WEDGE_ENTRY(main, argument)
{
    struct request asked;
    uint32_t draft = WEDGE_MUST(wedge_draft()).value;

    make(sign_now, WEDGE_READ, 500);
    make(sign_first, WEDGE_COW, 500);
    make(rotate, WEDGE_READ_WRITE, 100);

    WEDGE_MUST(wedge_grant_tag(draft, TAG_REQUEST, WEDGE_READ));
    WEDGE_MUST(wedge_grant_fd(draft, FD_LOG, WEDGE_BIT_APPEND));
    WEDGE_MUST(wedge_grant_gate(draft, sign_now));
    WEDGE_MUST(wedge_grant_gate(draft, sign_first));

    for (uint32_t served = 1; WEDGE_MUST(wedge_read(FD_REQUESTS, &asked, sizeof asked)).value == sizeof asked; served++) {
        serve(draft, &asked);
        if (served % 2 == 0)
            log_text(WEDGE_MUST(wedge_enter(rotate, 0, WEDGE_LEND_NOTHING)).value ? "rotated\n" : "no key left\n");
    }
    return 0;
}
