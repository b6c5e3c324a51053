/* Runs a program for wedge natively, without wedge, so that what it writes can be compared. sdk/host.sh does so with
 * the examples:
 *
 *     cc -O2 -w -Isdk -Dmain=program -o notary sdk/host.c examples/notary.c && ./notary examples/notary.toml
 *
 * The program's C is compiled as it is. Its service calls come to the function wedge_ask_five below. It has the tags
 * and the descriptors of the partition, and what it appended to each stream is printed as a report has it. Loads and
 * stores are checked by the pages of this machine: while an actor runs, those of a tag are open as far as its sheet
 * says, and a fault ends it.
 *
 * This is a second opinion on the examples, and no other wedge. No grant, no gate's holder and no bits of a descriptor
 * are checked; no fuel is counted; actors share their data and their stack; children have numbers in one row; calls
 * that no example makes are not there; and a partition is read line by line, as the examples are written. Tried on
 * Linux.
 */
#undef main
#include <setjmp.h>
#include <signal.h>
#include <stdio.h>
#include <stdlib.h>
#include <string.h>
#include <sys/mman.h>

#include "wedge.h"

typedef void begins(uint32_t, uint32_t);

/* The program's `main`, by the name that -Dmain gives it. */
void program(uint32_t argument);

static void stop(const char *why, uint32_t number)
{
    fprintf(stderr, "host: %s %u\n", why, number);
    exit(2);
}

/* ---- the partition */

enum { MANY = 64, BYTES = WEDGE_WINDOW };

static struct part {
    char name[65], kind[8], right[16], text[2 * BYTES];
    uint8_t bytes[BYTES];
    uint32_t pages, length, at; /* at: how many bytes of a source were read */
} tags[MANY], fds[MANY];

static uint32_t tag_count, fd_count;

static struct part *one_more(struct part *parts, uint32_t *count)
{
    if (*count == MANY)
        stop("too many parts:", *count);
    return &parts[(*count)++];
}

static int by_name(const void *left, const void *right)
{
    return strcmp(((const struct part *)left)->name, ((const struct part *)right)->name);
}

static void read_partition(const char *path)
{
    static char line[2 * BYTES + 64];
    struct part *part = NULL;
    FILE *file = fopen(path, "r");

    if (!file)
        stop("no partition", 0);
    while (fgets(line, sizeof line, file)) {
        if (strncmp(line, "[[tag]]", 7) == 0)
            part = one_more(tags, &tag_count);
        else if (strncmp(line, "[[fd]]", 6) == 0)
            part = one_more(fds, &fd_count);
        else if (part) {
            sscanf(line, "name = \"%64[^\"]", part->name);
            sscanf(line, "kind = \"%7[^\"]", part->kind);
            sscanf(line, "right = \"%15[^\"]", part->right);
            sscanf(line, "pages = %u", &part->pages);
            if (sscanf(line, "text = \"%65535[^\"]", part->text) == 1)
                part->length = strlen(strcpy((char *)part->bytes, part->text));
            if (sscanf(line, "hex = \"%131071[^\"]", part->text) == 1)
                while (sscanf(part->text + 2 * part->length, "%2hhx", &part->bytes[part->length]) == 1)
                    part->length++;
        }
    }
    fclose(file);
    qsort(tags, tag_count, sizeof *tags, by_name);
    qsort(fds, fd_count, sizeof *fds, by_name);
}

/* ---- actors: the last that began runs until it ends, while those who began it wait */

struct sheet {
    uint8_t right[MANY];
};

static struct {
    sigjmp_buf over;
    const struct sheet *sheet;
    struct wedge_answer end;
} actors[MANY]; /* actors[0] stands for nobody */

static struct sheet drafts[MANY];
static struct wedge_answer children[MANY];
static struct {
    begins *entry;
    struct sheet sheet;
    uint32_t own;
} gates[MANY];
static uint32_t depth, draft_count, child_count, gate_count;

/* Opens the pages of each tag as far as the running actor's sheet says. */
static void protect(void)
{
    for (uint32_t tag = 0; tag < tag_count && depth > 0; tag++) {
        int right = actors[depth].sheet->right[tag];
        int how = right == WEDGE_READ_WRITE ? PROT_READ | PROT_WRITE : right == WEDGE_READ ? PROT_READ : PROT_NONE;
        if (mprotect(wedge_declared(tag), tags[tag].pages * WEDGE_PAGE, how) != 0)
            stop("no protection of tag", tag);
    }
}

static struct wedge_answer begin(begins *entry, uint32_t argument, uint32_t own, const struct sheet *sheet)
{
    if (++depth == MANY)
        stop("too deep:", depth);
    actors[depth].sheet = sheet;
    protect();
    if (sigsetjmp(actors[depth].over, 1) == 0)
        entry(argument, own);
    depth--;
    protect();
    return actors[depth + 1].end;
}

static void end(uint32_t value, enum wedge_end how)
{
    actors[depth].end = (struct wedge_answer){value, WEDGE_OK, how};
    siglongjmp(actors[depth].over, 1);
}

/* EBREAK, where a call is refused that is made under WEDGE_MUST. */
void wedge_break(void)
{
    end(0, WEDGE_END_BREAK);
    abort();
}

/* A load or store that the pages do not allow. One outside the windows comes again, and ends this process. */
static void fault(int number, siginfo_t *about, void *context)
{
    uintptr_t at = (uintptr_t)about->si_addr - WEDGE_WINDOWS;
    uintptr_t tag = at / WEDGE_WINDOW;

    (void)context;
    if (tag >= 4096)
        signal(number, SIG_DFL);
    else if (tag < tag_count && at % WEDGE_WINDOW < tags[tag].pages * WEDGE_PAGE)
        end(0, WEDGE_END_DENIED);
    else
        end(0, WEDGE_END_UNMAPPED);
}

/* ---- the calls that the examples make */

struct wedge_answer wedge_ask_five(uint32_t number, uintptr_t w0, uintptr_t w1, uintptr_t w2, uintptr_t w3,
                                   uintptr_t w4)
{
    struct wedge_answer done = {0, WEDGE_OK, 0};
    uint32_t gate = gate_count;

    (void)w3; /* fuel */
    switch (number) {
    case 0:
        end(w0, WEDGE_END_EXITED);
        break;
    case 1:
        if (child_count == MANY)
            stop("too many children:", MANY);
        done.a0 = child_count++;
        children[done.a0] = begin((begins *)w1, w2, 0, &drafts[w0]);
        break;
    case 2:
        return children[w0];
    case 7:
        if (draft_count == MANY)
            stop("too many drafts:", MANY);
        done.a0 = draft_count++;
        break;
    case 8:
        drafts[w0].right[w1] = w2;
        break;
    case 9:
    case 10:
        break;
    case 13:
        if (gate_count == MANY || w4 != WEDGE_FRESH)
            stop("too many gates, or one of kind", w4);
        gates[gate].entry = (begins *)w1;
        gates[gate].sheet = drafts[w0];
        gates[gate].own = w2;
        gate_count++;
        break;
    case 14:
        while (gate > 0 && gates[gate - 1].entry != (begins *)w0)
            gate--;
        if (gate == 0)
            stop("no such gate", 0);
        return begin(gates[gate - 1].entry, w1, gates[gate - 1].own, &gates[gate - 1].sheet);
    case 15:
        done.a0 = w2 < fds[w0].length - fds[w0].at ? w2 : fds[w0].length - fds[w0].at;
        memcpy((void *)w1, fds[w0].bytes + fds[w0].at, done.a0);
        fds[w0].at += done.a0;
        break;
    case 16:
        if (w2 > BYTES - fds[w0].length)
            stop("no room in stream", w0);
        memcpy(fds[w0].bytes + fds[w0].length, (void *)w1, w2);
        fds[w0].length += w2;
        done.a0 = w2;
        break;
    default:
        stop("no call here with the number", number);
    }
    return done;
}

int main(int count, char **words)
{
    struct sigaction action = {.sa_sigaction = fault, .sa_flags = SA_SIGINFO};
    struct sheet sheet = {{0}};

    read_partition(count == 2 ? words[1] : "");
    for (uint32_t tag = 0; tag < tag_count; tag++) {
        void *bytes = wedge_declared(tag);
        if (mmap(bytes, WEDGE_WINDOW, PROT_READ | PROT_WRITE, MAP_PRIVATE | MAP_ANONYMOUS, -1, 0) != bytes)
            stop("no room for the window of tag", tag);
        memcpy(bytes, tags[tag].bytes, tags[tag].length);
        mprotect(bytes, WEDGE_WINDOW, PROT_NONE);
        sheet.right[tag] = strcmp(tags[tag].right, "ReadWrite") == 0 ? WEDGE_READ_WRITE
                           : strcmp(tags[tag].right, "Read") == 0    ? WEDGE_READ
                                                                     : 0;
    }
    sigaction(SIGSEGV, &action, NULL);
    begin((begins *)program, 0, 0, &sheet);
    for (uint32_t fd = 0; fd < fd_count; fd++) {
        if (strcmp(fds[fd].kind, "append") != 0)
            continue;
        printf("stream %u %s \"", fd, fds[fd].name);
        for (uint32_t i = 0; i < fds[fd].length; i++) {
            uint8_t byte = fds[fd].bytes[i];
            printf(byte < ' ' || byte > '~' || byte == '"' || byte == '\\' ? "\\%02x" : "%c", byte);
        }
        printf("\"\n");
    }
    return 0;
}
