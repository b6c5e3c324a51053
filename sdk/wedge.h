/* The service calls of wedge for programs in C (docs/MACHINE.md has the rules).
 *
 * A call has its number in a7 and its arguments in a0 to a4. Its value comes back in a0, its code in a1, and some
 * calls answer a further number in a2. A call that is refused has the value 0 and a code other than WEDGE_OK, and the
 * program goes on.
 */
#ifndef WEDGE_H
#define WEDGE_H

#include <stdint.h>

/* ---- codes: what a call answers in a1 */

enum wedge_code {
    WEDGE_OK = 0,         /* done */
    WEDGE_DENIED = 1,     /* the sheet does not allow it; the report names the grant that is missing */
    WEDGE_FULL = 2,       /* no room: of blocks, slots, drafts, grants, descriptors or actors */
    WEDGE_FUEL_SHORT = 3, /* less fuel is left than the call takes or gives away */
    WEDGE_DEEP = 4,       /* the actor's name already has 32 parts */
    WEDGE_NO_SUCH = 5,    /* there is no such child, tag, block's slot, draft, descriptor or file */
    WEDGE_BAD = 6         /* an argument that no actor may pass, or a number that is no call */
};

/* ---- rights on tags, and bits on descriptors */

enum wedge_right {
    WEDGE_COW = 1,       /* a private copy: of the bytes as they are as the child is prepared, or of the starter's own copy */
    WEDGE_READ = 2,      /* to load */
    WEDGE_READ_WRITE = 3 /* to load and to store, and to place and free blocks */
};

enum wedge_bits {
    WEDGE_BIT_READ = 1,   /* to read a source */
    WEDGE_BIT_APPEND = 2, /* to append to an append stream */
    WEDGE_BIT_BOTH = 3    /* both bits: a stream is used by one of them, and no file is opened with both */
};

/* ---- how a child or a run ended: wedge_joined.end */

enum wedge_end {
    WEDGE_END_EXITED = 0,          /* it called wedge_exit; the value is the one that it passed, at each other end 0 */
    WEDGE_END_DENIED = 1,          /* it loaded or stored in a tag without the right */
    WEDGE_END_MISALIGNED = 2,      /* a load or a store at an address that is no multiple of its width */
    WEDGE_END_JUMP_MISALIGNED = 3, /* a jump to an address that is no multiple of 4 */
    WEDGE_END_BAD_INSTRUCTION = 4, /* a word that is no instruction */
    WEDGE_END_FETCH_FAULT = 5,     /* its program counter was outside the text */
    WEDGE_END_TEXT_STORE = 6,      /* a store into the text */
    WEDGE_END_UNMAPPED = 7,        /* a load or a store where there is no memory */
    WEDGE_END_BREAK = 8,           /* EBREAK */
    WEDGE_END_FUEL_OUT = 9         /* it had no fuel left */
};

/* ---- numbers of tags and descriptors
 *
 * A declared tag has as its number its index among the tags of the partition IN THE ORDER OF THEIR NAMES (by bytes:
 * capitals before small letters), from 0; a declared descriptor has its index among the descriptors. A tag that is
 * added to the partition so changes the numbers of others. sdk/names writes the numbers of a partition as a header:
 *
 *     sdk/names program.toml > program_names.h
 *     #include "program_names.h"               TAG_KEY, SEG_KEY, FD_LOG
 *
 * and sdk/link, in place of wedge link, links no ELF file that was made over other names. */

#ifdef __riscv

/* The number or the address of a name that the linker fills in, from the script that sdk/names --ld writes: so code
 * that was compiled once can be linked for more than one partition, and for none that lacks the name. Not together
 * with the header, whose constants have the same names. */
#define WEDGE_LINKED(name)                                                                         \
    __extension__({                                                                                \
        uint32_t wedge_linked;                                                                     \
        __asm__("lui %0, %%hi(" #name ")\n\taddi %0, %0, %%lo(" #name ")" : "=r"(wedge_linked));   \
        wedge_linked;                                                                              \
    })

#endif

/* ---- windows: where the bytes of tags are seen */

#define WEDGE_WINDOWS 0x40000000u /* the address of the first window */
#define WEDGE_WINDOW 0x10000u     /* the bytes of a window */
#define WEDGE_PAGE 4096u          /* a tag has 1 to 16 pages */

/* The address at which a declared tag is seen: it lives in the slot of its number. A tag that was made lives
 * elsewhere, at the address that wedge_tag_new answers. */
static inline void *wedge_declared(uint32_t tag)
{
    return (void *)(uintptr_t)(WEDGE_WINDOWS + tag * WEDGE_WINDOW);
}

/* ---- answers */

/* Of most calls. */
struct wedge_reply {
    uint32_t value; /* 0 where the call is refused */
    uint32_t code;  /* an enum wedge_code */
};

/* Of wedge_join and wedge_enter. */
struct wedge_joined {
    uint32_t value; /* what the child or the run exited with, or 0 */
    uint32_t code;  /* an enum wedge_code */
    uint32_t end;   /* an enum wedge_end, where the code is WEDGE_OK */
};

/* Of wedge_tag_new. */
struct wedge_tag {
    uint32_t tag;  /* the tag's number, or 0 where the call is refused */
    uint32_t code; /* an enum wedge_code */
    void *bytes;   /* where its bytes begin, where the code is WEDGE_OK */
};

/* Of wedge_smalloc. */
struct wedge_block {
    void *bytes;   /* where the block begins, or NULL where the call is refused */
    uint32_t code; /* an enum wedge_code */
};

/* ---- the call itself. Where the compiler is one for another machine, wedge_ask_five is a function of another file:
 * sdk/host.c has one, by which a program runs there, to compare what it computes. An address there may have more than
 * 32 bits, so the words that are passed are as wide as an address. */

/* The registers as the call leaves them. */
struct wedge_answer {
    uint32_t a0, a1, a2; /* the value, the code, and a further number where the call has one */
};

#ifdef __riscv

/* Makes the call of a number with up to four arguments, and answers the registers. The compiler takes it that the call
 * may read and write any memory. */
static inline struct wedge_answer wedge_ask(uint32_t number, uintptr_t w0, uintptr_t w1, uintptr_t w2, uintptr_t w3)
{
    register uint32_t a0 __asm__("a0") = w0;
    register uint32_t a1 __asm__("a1") = w1;
    register uint32_t a2 __asm__("a2") = w2;
    register uint32_t a3 __asm__("a3") = w3;
    register uint32_t a7 __asm__("a7") = number;
    __asm__ volatile("ecall" : "+r"(a0), "+r"(a1), "+r"(a2) : "r"(a3), "r"(a7) : "memory");
    return (struct wedge_answer){a0, a1, a2};
}

/* The same with a fifth argument. */
static inline struct wedge_answer wedge_ask_five(uint32_t number, uintptr_t w0, uintptr_t w1, uintptr_t w2,
                                                 uintptr_t w3, uintptr_t w4)
{
    register uint32_t a0 __asm__("a0") = w0;
    register uint32_t a1 __asm__("a1") = w1;
    register uint32_t a2 __asm__("a2") = w2;
    register uint32_t a3 __asm__("a3") = w3;
    register uint32_t a4 __asm__("a4") = w4;
    register uint32_t a7 __asm__("a7") = number;
    __asm__ volatile("ecall" : "+r"(a0), "+r"(a1), "+r"(a2) : "r"(a3), "r"(a4), "r"(a7) : "memory");
    return (struct wedge_answer){a0, a1, a2};
}

#else

struct wedge_answer wedge_ask_five(uint32_t number, uintptr_t w0, uintptr_t w1, uintptr_t w2, uintptr_t w3,
                                   uintptr_t w4);

static inline struct wedge_answer wedge_ask(uint32_t number, uintptr_t w0, uintptr_t w1, uintptr_t w2, uintptr_t w3)
{
    return wedge_ask_five(number, w0, w1, w2, w3, 0);
}

#endif

/* The same as wedge_ask, of which only the value and the code are wanted. */
static inline struct wedge_reply wedge_call(uint32_t number, uintptr_t w0, uintptr_t w1, uintptr_t w2, uintptr_t w3)
{
    struct wedge_answer answer = wedge_ask(number, w0, w1, w2, w3);
    return (struct wedge_reply){answer.a0, answer.a1};
}

/* ---- calls that are not to be refused
 *
 * Only a denial has a line in the report. A call that is refused for another reason (no such, bad, full, fuel short, too
 * deep) answers its code, and a program that does not look at it goes on with the value 0, which is the number of a
 * child, a draft or a tag as well. So each call either has its code looked at, or is made under WEDGE_MUST: where it
 * is refused, for whatever reason, its actor ends by EBREAK there, and the report says `break` with the pc. The answer
 * is that of the call:
 *
 *     uint32_t draft = WEDGE_MUST(wedge_draft()).value;
 *     WEDGE_MUST(wedge_grant_tag(draft, TAG_KEY, WEDGE_READ));
 */
#define WEDGE_MUST(call)                          \
    __extension__({                               \
        __typeof__(call) wedge_answered = (call); \
        if (wedge_answered.code != WEDGE_OK)      \
            wedge_break();                        \
        wedge_answered;                           \
    })

#ifdef __riscv

/* Ends the actor, by EBREAK. */
__attribute__((noreturn)) static inline void wedge_break(void)
{
    __asm__ volatile("ebreak");
    __builtin_unreachable();
}

#else

__attribute__((noreturn)) void wedge_break(void);

#endif

/* ---- actors */

/* Ends the actor with a value. */
__attribute__((noreturn)) static inline void wedge_exit(uint32_t value)
{
    wedge_ask(0, value, 0, 0, 0);
    __builtin_unreachable();
}

/* A function at which an actor begins: the root at `main`, a child at the one that wedge_create names. Nobody called
 * it, so it must not return; this one exits with what its body returns.
 *
 *     WEDGE_ENTRY(main, argument) { return 0; }
 */
#define WEDGE_ENTRY(name, argument)                                       \
    static uint32_t name##_body(uint32_t argument);                       \
    __attribute__((noreturn, used)) void name(uint32_t argument);         \
    void name(uint32_t argument) { wedge_exit(name##_body(argument)); }   \
    static uint32_t name##_body(__attribute__((unused)) uint32_t argument)

/* Starts a child under a draft, at an entry, with an argument and so much of this actor's fuel. The value is the
 * child's number. Each child has a stack, a heap and data of its own, which begin as those of the program. */
static inline struct wedge_reply wedge_create(uint32_t draft, void (*entry)(uint32_t), uint32_t argument, uint32_t fuel)
{
    return wedge_call(1, draft, (uintptr_t)entry, argument, fuel);
}

/* Waits for a child to end, and takes back the fuel that it has left. */
static inline struct wedge_joined wedge_join(uint32_t child)
{
    struct wedge_answer answer = wedge_ask(2, child, 0, 0, 0);
    return (struct wedge_joined){answer.a0, answer.a1, answer.a2};
}

/* ---- tags and their blocks */

/* Makes a tag of 1 to 16 pages, all zero. Its maker may load and store it, and nobody else without a grant. */
static inline struct wedge_tag wedge_tag_new(uint32_t pages)
{
    struct wedge_answer answer = wedge_ask(3, pages, 0, 0, 0);
    return (struct wedge_tag){answer.a0, answer.a1, (void *)(uintptr_t)answer.a2};
}

/* Deletes a tag that this actor made. */
static inline struct wedge_reply wedge_tag_delete(uint32_t tag)
{
    return wedge_call(4, tag, 0, 0, 0);
}

/* Places a block in a tag. A block says what is taken, and guards nothing. */
static inline struct wedge_block wedge_smalloc(uint32_t tag, uint32_t size)
{
    struct wedge_reply reply = wedge_call(5, tag, size, 0, 0);
    return (struct wedge_block){(void *)(uintptr_t)reply.value, reply.code};
}

/* Frees a block. */
static inline struct wedge_reply wedge_sfree(void *block)
{
    return wedge_call(6, (uintptr_t)block, 0, 0, 0);
}

/* ---- drafts: of what the sheet of a child or of a gate is made, and what is lent to a run. Nothing is checked against
 * the actor's own sheet before the draft is used. */

/* Makes a draft without grants. The value is its number. */
static inline struct wedge_reply wedge_draft(void)
{
    return wedge_call(7, 0, 0, 0, 0);
}

/* Puts a right on a tag into a draft. */
static inline struct wedge_reply wedge_grant_tag(uint32_t draft, uint32_t tag, enum wedge_right right)
{
    return wedge_call(8, draft, tag, right, 0);
}

/* Puts bits on a descriptor into a draft. */
static inline struct wedge_reply wedge_grant_fd(uint32_t draft, uint32_t fd, enum wedge_bits bits)
{
    return wedge_call(9, draft, fd, bits, 0);
}

/* Puts the gate at an entry into a draft: the one that this actor has there as the draft is used. */
static inline struct wedge_reply wedge_grant_gate(uint32_t draft, void (*entry)(uint32_t, uint32_t))
{
    return wedge_call(10, draft, (uintptr_t)entry, 0, 0);
}

/* Has the child run as a user. Without it, it runs as this actor's. */
static inline struct wedge_reply wedge_set_user(uint32_t draft, uint32_t user)
{
    return wedge_call(11, draft, user, 0, 0);
}

/* Has the child see the files below a directory. Without it, it sees this actor's. The path takes a unit of fuel for
 * each of its bytes, of which it has 1 to 256. */
static inline struct wedge_reply wedge_set_root(uint32_t draft, const char *path, uint32_t length)
{
    return wedge_call(12, draft, (uintptr_t)path, length, 0);
}

/* ---- gates: code with rights that those who enter it do not have */

/* A function at which the runs of a gate begin: with the argument of whoever enters it, and with the gate's own, which
 * its maker fixed. As for WEDGE_ENTRY, it exits with what its body returns.
 *
 *     WEDGE_GATE(sign, message, key) { return message ^ key; }
 */
#define WEDGE_GATE(name, argument, own)                                                                    \
    static uint32_t name##_body(uint32_t argument, uint32_t own);                                          \
    __attribute__((noreturn, used)) void name(uint32_t argument, uint32_t own);                            \
    void name(uint32_t argument, uint32_t own) { wedge_exit(name##_body(argument, own)); }                 \
    static uint32_t name##_body(__attribute__((unused)) uint32_t argument, __attribute__((unused)) uint32_t own)

enum wedge_kind {
    WEDGE_FRESH = 0,   /* each run begins with the memory that was fixed when the gate was made */
    WEDGE_RECYCLED = 1 /* each run but the first begins with the memory that the run before left */
};

static inline struct wedge_reply wedge_make_gate_of(enum wedge_kind kind, uint32_t draft,
                                                    void (*entry)(uint32_t, uint32_t), uint32_t own, uint32_t fuel)
{
    struct wedge_answer answer = wedge_ask_five(13, draft, (uintptr_t)entry, own, fuel, kind);
    return (struct wedge_reply){answer.a0, answer.a1};
}

/* Makes a fresh gate of a draft: each run of it begins at an entry, under the sheet that a child of the draft would
 * have, with this argument, and with so much of the fuel of whoever enters it. A gate's draft has no user and no
 * directory. This actor has the gate at that entry then, and may enter it and grant it. */
static inline struct wedge_reply wedge_make_gate(uint32_t draft, void (*entry)(uint32_t, uint32_t), uint32_t own,
                                                 uint32_t fuel)
{
    return wedge_make_gate_of(WEDGE_FRESH, draft, entry, own, fuel);
}

/* Makes a recycled gate: as wedge_make_gate does, but what a run leaves in its private memory, so in its variables, the
 * next run finds there, whoever enters the gate then and however the run before ended. What one caller has sent may so
 * come to another, if the gate's code does not keep them apart. Registers, fuel and what is lent begin anew. The gate
 * has one run at a time: while a run is in it, an actor that calls wedge_enter has no turn, and waits. */
static inline struct wedge_reply wedge_make_recycled_gate(uint32_t draft, void (*entry)(uint32_t, uint32_t),
                                                          uint32_t own, uint32_t fuel)
{
    return wedge_make_gate_of(WEDGE_RECYCLED, draft, entry, own, fuel);
}

/* For wedge_enter, in place of a draft: nothing is lent to the run. */
#define WEDGE_LEND_NOTHING 0xffffffffu

/* Enters the gate that this actor has at an entry, and waits for the run. A draft of tags (to load or store; no
 * copies) and descriptors is lent to it where the gate's own sheet names nothing, for this run alone; or
 * WEDGE_LEND_NOTHING. */
static inline struct wedge_joined wedge_enter(void (*entry)(uint32_t, uint32_t), uint32_t argument, uint32_t lent)
{
    struct wedge_answer answer = wedge_ask(14, (uintptr_t)entry, argument, lent, 0);
    return (struct wedge_joined){answer.a0, answer.a1, answer.a2};
}

/* ---- descriptors and files. A buffer has at most 256 bytes and lies in the stack, the heap or the data; one from
 * which bytes are taken, to append or as a path, may also lie in the text, where constants are. None lies in a tag. Each byte takes a unit of fuel. */

/* Reads the next bytes of a source. The value is their number, 0 at the end. */
static inline struct wedge_reply wedge_read(uint32_t fd, void *buffer, uint32_t length)
{
    return wedge_call(15, fd, (uintptr_t)buffer, length, 0);
}

/* Appends bytes to an append stream. The value is their number. */
static inline struct wedge_reply wedge_append(uint32_t fd, const void *buffer, uint32_t length)
{
    return wedge_call(16, fd, (uintptr_t)buffer, length, 0);
}

/* Closes a stream, for every actor. */
static inline struct wedge_reply wedge_close(uint32_t fd)
{
    return wedge_call(17, fd, 0, 0, 0);
}

/* Opens the file of a path below the actor's directory. The value is its descriptor. */
static inline struct wedge_reply wedge_open(const char *path, uint32_t length, enum wedge_bits bits)
{
    return wedge_call(18, (uintptr_t)path, length, bits, 0);
}

#endif
