/* A server in two compartments, in C: the code that reads requests has no right on the secret.
 *
 *     sdk/README.md says how it is compiled
 *     sdk/link examples/server.elf examples/server.toml > server.wedge
 *     bin/wedge run server.wedge
 *
 * `main` may read the secret. For each request it starts a child that runs `parse`, under a sheet that has Read on the
 * two requests and nothing else, and joins it. `parse` trusts an index in the request. The second request has one that
 * leads to the secret: the load is denied, that child has ended, and the server goes on.
 */
#include "server_names.h" /* TAG_REQUEST1, TAG_REQUEST2, TAG_SECRET, FD_OUT: sdk/names examples/server.toml */
#include "wedge.h"

/* A request: an index among its own words, and the words. */
struct request {
    uint32_t index;
    uint32_t words[8];
};

/* What a child does: the argument is the address of its request. */
WEDGE_ENTRY(parse, argument)
{
    const volatile struct request *request = (const void *)argument;
    return request->words[request->index];
}

/* Has a request parsed by a child, and says how the child ended: with a value, or stopped. A call that is refused has no
 * line in the report unless it is denied, so each is made under WEDGE_MUST: this actor ends there, if one is. */
static void ask(uint32_t draft, uint32_t tag)
{
    uint32_t child = WEDGE_MUST(wedge_create(draft, parse, (uintptr_t)wedge_declared(tag), 100)).value;
    struct wedge_joined joined = WEDGE_MUST(wedge_join(child));
    char line[] = "0: value 00\n";

    line[0] = '1' + tag;
    if (joined.end == WEDGE_END_EXITED) {
        line[9] = '0' + joined.value / 10 % 10;
        line[10] = '0' + joined.value % 10;
        WEDGE_MUST(wedge_append(FD_OUT, line, sizeof line - 1));
    } else {
        WEDGE_MUST(wedge_append(FD_OUT, line, 3));
        if (joined.end == WEDGE_END_DENIED)
            WEDGE_MUST(wedge_append(FD_OUT, "denied\n", 7));
        else
            WEDGE_MUST(wedge_append(FD_OUT, "stopped\n", 8));
    }
}

WEDGE_ENTRY(main, argument)
{
    uint32_t draft = WEDGE_MUST(wedge_draft()).value;

    WEDGE_MUST(wedge_grant_tag(draft, TAG_REQUEST1, WEDGE_READ));
    WEDGE_MUST(wedge_grant_tag(draft, TAG_REQUEST2, WEDGE_READ));
    ask(draft, TAG_REQUEST1);
    ask(draft, TAG_REQUEST2);
    return 0;
}
