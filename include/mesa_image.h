/*
 * The instructions of an image as C, one macro for each: what `mesamon emit` writes is a line for each instruction of the
 * image of the layout Linux (docs/image.md has the instructions, docs/linux.md what is trusted). C11 with GNU attributes,
 * over mesa_monitors.h, of which it takes the processes, their robust lists, and the calls of the kernel. Nothing of this
 * file is proved: what each macro does is trusted to be the instruction's step of the machine (docs/machine.md).
 *
 * A line has the instruction's place, its numbers, and the operands that it names: d0 is the lowest one of the function.
 * Before the header the program says
 *
 *     MESA_FIRST          the address of the first word of the monitors
 *     MESA_PAST           the address behind the last one
 *     MESA_MONITORS(M)    M(e) for each monitor, where e is the address of its link
 *     MESA_OPERANDS(M)    M(d0) M(d1) .. for the operands of a function
 *
 * Addresses are the machine's. A word of a process lies in its struct mesa_process, and a word of a monitor in a cell of 8
 * bytes, so that a link and the lock behind it are what the kernel walks. A link word, a head and a pending entry hold
 * pointers, for the kernel; an instruction sees the address of the link, and 0 for the end of a list.
 *
 * A lock word holds the owner's thread id, for the kernel. So an operand has a second half, what it is in a lock word: of
 * the thread's own number it is the thread's id (SELF), and NEG, BAND and BOR work on both halves. What an instruction
 * reads from a lock word it sees as the kernel does; the code of programs looks at its flags, at whether it has an owner,
 * and whether it is what it was.
 *
 * What an operand is known to be the address of goes with it, for the compiler, which makes a plain access of it; where
 * nothing is known the address alone tells. Members are plain words, which their monitor's lock guards.
 */
#ifndef MESA_IMAGE_H
#define MESA_IMAGE_H

#include "mesa_monitors.h"
#include <errno.h>

/* What is done before each shared instruction: its place, its name, and the address that it is about, 0 for none. */
#ifndef MESA_STEP
#define MESA_STEP(self, place, name, address) MESA_POINT(self, place)
#endif

/* Members and sequence words, as LOAD and STORE reach them; a test that looks at them makes them shared. */
#ifdef MESA_SHARED_MEMBERS
#define MESA_GET_MEMBER(cell) atomic_load(&(cell)->shared)
#define MESA_SET_MEMBER(cell, value) atomic_store(&(cell)->shared, value)
#else
#define MESA_GET_MEMBER(cell) ((cell)->word)
#define MESA_SET_MEMBER(cell, value) ((void)((cell)->word = (value)))
#endif

#define MESA_INLINE MESA_UNUSED __attribute__((always_inline)) static inline

/* ---- Words ---- */

#define MESA_WORDS (MESA_PAST - MESA_FIRST)

/* A word of a monitor: its link, or another word. */
union mesa_cell {
    struct mesa_link link;
    _Atomic uint32_t shared;
    uint32_t word;
};

_Static_assert(sizeof(union mesa_cell) == offsetof(struct mesa_monitor, lock), "a lock is the word behind its link");
_Static_assert(MESA_FIRST == 1 + 6 * MESA_MOST_PROCESSES, "the words of as many processes stand before the monitors");

static union mesa_cell mesa_words[MESA_WORDS + 1];
static const uint32_t mesa_first = MESA_FIRST, mesa_word_count = MESA_WORDS;

/* What a word is: the six of a process, in their order, and those of a monitor. */
enum mesa_kind {
    MESA_HEAD, MESA_PENDING, MESA_ID, MESA_CLAIM, MESA_RESULT, MESA_WORD_OUTCOME,
    MESA_LINK, MESA_LOCK, MESA_MEMBER, MESA_UNTOLD
};

/* The step that may not be: an address outside the memory, a number of no process, a word that only the kernel writes. */
MESA_UNUSED __attribute__((noinline, cold)) static _Noreturn void mesa_broken(void)
{
    mesa_stop("a step that may not be\n", 23);
}

/* What the word of a monitor at an address is. */
MESA_INLINE enum mesa_kind mesa_monitor_kind(uint32_t address)
{
#define MESA_KINDS(e) case e: return MESA_LINK; case e + 1: return MESA_LOCK;
    if (address - mesa_first >= mesa_word_count)
        return MESA_UNTOLD;
    switch (address) {
    MESA_MONITORS(MESA_KINDS)
    default:
        return MESA_MEMBER;
    }
#undef MESA_KINDS
}

/* What so many words from an address on are: members, or untold. */
MESA_INLINE enum mesa_kind mesa_span_kind(uint32_t base, uint32_t count)
{
#define MESA_IS_APART(e) && (base > e + 1u || base + count <= e + 0u)
    bool members = base >= mesa_first && base - mesa_first + count <= mesa_word_count MESA_MONITORS(MESA_IS_APART);
#undef MESA_IS_APART
    return members ? MESA_MEMBER : MESA_UNTOLD;
}

/* The process of a number. */
MESA_INLINE struct mesa_process *mesa_process_of(uint32_t number)
{
    if (number - 1 >= MESA_MOST_PROCESSES)
        mesa_broken();
    return &mesa_processes[number];
}

/* The number of the process whose word is at an address. */
MESA_INLINE uint32_t mesa_number_at(uint32_t address)
{
    return 1 + (address - 1) / 6;
}

/* What the word at an address is, where nothing is known of it. */
MESA_UNUSED __attribute__((noinline, cold)) static enum mesa_kind mesa_find(uint32_t address)
{
    enum mesa_kind kind = mesa_monitor_kind(address);
    if (kind != MESA_UNTOLD)
        return kind;
    if (address - 1 >= 6 * MESA_MOST_PROCESSES)
        mesa_broken();
    return (enum mesa_kind)((address - 1) % 6);
}

MESA_INLINE union mesa_cell *mesa_cell(uint32_t address)
{
    return &mesa_words[address - mesa_first];
}

/* A word of 32 bits: of a link word, a head and a pending entry there is none. */
MESA_INLINE _Atomic uint32_t *mesa_word(enum mesa_kind kind, struct mesa_process *process, uint32_t address)
{
    switch (kind) {
    case MESA_ID:
        return &process->id;
    case MESA_CLAIM:
        return &process->claim;
    case MESA_RESULT:
        return &process->result;
    case MESA_WORD_OUTCOME:
        return &process->outcome;
    case MESA_LOCK:
    case MESA_MEMBER:
        return &mesa_cell(address)->shared;
    default:
        mesa_broken();
    }
}

/* The address of a link; 0 where it is none of a monitor: the end of a list. */
MESA_INLINE uint32_t mesa_address_of(struct mesa_link *link)
{
    uintptr_t offset = (uintptr_t)link - (uintptr_t)mesa_words;
    return offset < sizeof mesa_words ? mesa_first + (uint32_t)(offset / sizeof(union mesa_cell)) : 0;
}

/* The link at an address; this end of a list for 0. */
MESA_INLINE struct mesa_link *mesa_link_at(uint32_t address, struct mesa_link *end)
{
    if (address == 0)
        return end;
    if (address - mesa_first >= mesa_word_count)
        mesa_broken();
    return &mesa_cell(address)->link;
}

/* ---- Shared instructions, on a word of which this is known ---- */

MESA_INLINE uint32_t mesa_load(enum mesa_kind kind, struct mesa_process *process, uint32_t address)
{
    switch (kind) {
    case MESA_HEAD:
        return mesa_address_of(atomic_load(&process->robust.head.next));
    case MESA_PENDING:
        return mesa_address_of(atomic_load(&process->robust.pending));
    case MESA_LINK:
        return mesa_address_of(atomic_load(&mesa_cell(address)->link.next));
    case MESA_ID:
        return atomic_load(&process->id) == 0 ? 0 : mesa_number_at(address);
    case MESA_MEMBER:
        return MESA_GET_MEMBER(mesa_cell(address));
    default:
        return atomic_load(mesa_word(kind, process, address));
    }
}

MESA_INLINE void mesa_store(struct mesa_process *self, enum mesa_kind kind, struct mesa_process *process, uint32_t address,
                            uint32_t value)
{
    switch (kind) {
    case MESA_HEAD:
        atomic_store(&process->robust.head.next, mesa_link_at(value, &process->robust.head));
        return;
    case MESA_PENDING:
        atomic_store(&process->robust.pending, mesa_link_at(value, NULL));
        return;
    case MESA_LINK:
        atomic_store(&mesa_cell(address)->link.next, mesa_link_at(value, &self->robust.head));
        return;
    case MESA_ID:
        mesa_broken();
    case MESA_MEMBER:
        MESA_SET_MEMBER(mesa_cell(address), value);
        return;
    default:
        atomic_store(mesa_word(kind, process, address), value);
    }
}

/* FWAIT: 0 where the thread slept, and 1 where the word wasn't as expected. An id word is the process's number until it is
 * cleared once for all, so that the thread's id stands for it. */
MESA_INLINE uint32_t mesa_wait_on(enum mesa_kind kind, struct mesa_process *process, uint32_t address, uint32_t expected)
{
    _Atomic uint32_t *word = mesa_word(kind, process, address);
    if (kind == MESA_ID) {
        if (expected != mesa_number_at(address))
            mesa_broken();
        expected = atomic_load(word);
        if (expected == 0)
            return 1;
    }
    return mesa_futex_wait(word, expected) == -EAGAIN;
}

/* The kernel takes signed numbers of sleepers. */
MESA_INLINE uint32_t mesa_most(uint32_t number)
{
    return number > INT32_MAX ? INT32_MAX : number;
}

/* FWAKE. The kernel would wake one where the machine wakes nobody. */
MESA_INLINE uint32_t mesa_wake_on(_Atomic uint32_t *word, uint32_t most)
{
    return most == 0 ? 0 : (uint32_t)mesa_futex_wake(word, mesa_most(most));
}

/* FREQ: 4294967295 where the word wasn't as expected. */
MESA_INLINE uint32_t mesa_move(_Atomic uint32_t *word, _Atomic uint32_t *to, uint32_t wake, uint32_t moves, uint32_t expected)
{
    long count = mesa_futex_requeue(word, to, mesa_most(wake), mesa_most(moves), expected);
    return count == -EAGAIN ? UINT32_MAX : (uint32_t)count;
}

/* ---- Operands and locals ---- */

/* An operand: its word, what it is in a lock word, and what it is known to be the address of. */
#define MESA_OPERAND(d)                                                                                                      \
    MESA_UNUSED uint32_t d = 0, lock_##d = 0;                                                                                \
    MESA_UNUSED enum mesa_kind kind_##d = MESA_UNTOLD;                                                                       \
    MESA_UNUSED struct mesa_process *of_##d = NULL;

#define MESA_SET(d, value) (d = (value), lock_##d = d, kind_##d = MESA_UNTOLD)

/* What word is meant by an address that is an operand. */
#define MESA_TELL(d)                                                                                                         \
    if (kind_##d == MESA_UNTOLD) {                                                                                           \
        kind_##d = mesa_find(d);                                                                                             \
        of_##d = kind_##d < MESA_LINK ? &mesa_processes[mesa_number_at(d)] : NULL;                                           \
    }
#define MESA_AT(d) kind_##d, of_##d, d
#define MESA_HALF(d, value) (kind_##d == MESA_LOCK ? lock_##value : value)

#define MESA_LOCALS                                                                                                          \
    MESA_UNUSED uint32_t l0 = 0, l1 = 0, l2 = 0, l3 = 0, l4 = 0, l5 = 0, l6 = 0, l7 = 0, l8 = 0, l9 = 0, l10 = 0, l11 = 0,   \
        l12 = 0, l13 = 0, l14 = 0, l15 = 0, l16 = 0, l17 = 0, l18 = 0, l19 = 0, l20 = 0, l21 = 0, l22 = 0, l23 = 0, l24 = 0, \
        l25 = 0, l26 = 0, l27 = 0, l28 = 0, l29 = 0, l30 = 0, l31 = 0, l32 = 0, l33 = 0, l34 = 0, l35 = 0, l36 = 0, l37 = 0, \
        l38 = 0, l39 = 0, l40 = 0, l41 = 0, l42 = 0, l43 = 0, l44 = 0, l45 = 0, l46 = 0, l47 = 0, l48 = 0, l49 = 0, l50 = 0, \
        l51 = 0, l52 = 0, l53 = 0, l54 = 0, l55 = 0, l56 = 0, l57 = 0, l58 = 0, l59 = 0, l60 = 0, l61 = 0, l62 = 0, l63 = 0, \
        l64 = 0;

/* ---- Functions: one from each place where a process begins or a CALL leads ---- */

#define MESA_FRAME                                                                                                           \
    MESA_UNUSED const uint32_t own = (uint32_t)(self - mesa_processes);                                                      \
    MESA_LOCALS MESA_OPERANDS(MESA_OPERAND)

/* Code that nothing leads to stands in a function of its own. */
#define MESA_OPEN                                                                                                            \
    MESA_UNUSED static uint32_t code_of_nobody(struct mesa_process *self)                                                    \
    {                                                                                                                        \
        MESA_FRAME

#define MESA_CLOSE                                                                                                           \
        return 0;                                                                                                            \
    }

#define MESA_END(start)                                                                                                      \
    MESA_CLOSE                                                                                                               \
    int main(void)                                                                                                           \
    {                                                                                                                        \
        mesa_run(start_##start);                                                                                             \
    }

/* A function of so many parameters: its declaration, and the body of a process that begins there; then its beginning. */
#define MESA_DECLARE(place, parameters, values)                                                                              \
    MESA_UNUSED static uint32_t code_##place parameters;                                                                     \
    MESA_UNUSED static int32_t start_##place(struct mesa_process *self, const int32_t *arguments)                            \
    {                                                                                                                        \
        (void)arguments;                                                                                                     \
        return (int32_t)code_##place values;                                                                                 \
    }

#define MESA_DEFINE(place, parameters)                                                                                       \
    MESA_CLOSE                                                                                                               \
    MESA_UNUSED static uint32_t code_##place parameters                                                                      \
    {                                                                                                                        \
        MESA_FRAME

#define MESA_PARAMETERS_0 struct mesa_process *self
#define MESA_PARAMETERS_1 MESA_PARAMETERS_0, uint32_t a0
#define MESA_PARAMETERS_2 MESA_PARAMETERS_1, uint32_t a1
#define MESA_PARAMETERS_3 MESA_PARAMETERS_2, uint32_t a2
#define MESA_PARAMETERS_4 MESA_PARAMETERS_3, uint32_t a3
#define MESA_PARAMETERS_5 MESA_PARAMETERS_4, uint32_t a4
#define MESA_PARAMETERS_6 MESA_PARAMETERS_5, uint32_t a5
#define MESA_PARAMETERS_7 MESA_PARAMETERS_6, uint32_t a6
#define MESA_PARAMETERS_8 MESA_PARAMETERS_7, uint32_t a7
#define MESA_PARAMETERS_9 MESA_PARAMETERS_8, uint32_t a8
#define MESA_PARAMETERS_10 MESA_PARAMETERS_9, uint32_t a9
#define MESA_PARAMETERS_11 MESA_PARAMETERS_10, uint32_t a10
#define MESA_PARAMETERS_12 MESA_PARAMETERS_11, uint32_t a11
#define MESA_PARAMETERS_13 MESA_PARAMETERS_12, uint32_t a12
#define MESA_PARAMETERS_14 MESA_PARAMETERS_13, uint32_t a13
#define MESA_PARAMETERS_15 MESA_PARAMETERS_14, uint32_t a14
#define MESA_PARAMETERS_16 MESA_PARAMETERS_15, uint32_t a15
#define MESA_VALUES_0 self
#define MESA_VALUES_1 MESA_VALUES_0, (uint32_t)arguments[0]
#define MESA_VALUES_2 MESA_VALUES_1, (uint32_t)arguments[1]
#define MESA_VALUES_3 MESA_VALUES_2, (uint32_t)arguments[2]
#define MESA_VALUES_4 MESA_VALUES_3, (uint32_t)arguments[3]
#define MESA_VALUES_5 MESA_VALUES_4, (uint32_t)arguments[4]
#define MESA_VALUES_6 MESA_VALUES_5, (uint32_t)arguments[5]
#define MESA_VALUES_7 MESA_VALUES_6, (uint32_t)arguments[6]
#define MESA_VALUES_8 MESA_VALUES_7, (uint32_t)arguments[7]
#define MESA_VALUES_9 MESA_VALUES_8, (uint32_t)arguments[8]
#define MESA_VALUES_10 MESA_VALUES_9, (uint32_t)arguments[9]
#define MESA_VALUES_11 MESA_VALUES_10, (uint32_t)arguments[10]
#define MESA_VALUES_12 MESA_VALUES_11, (uint32_t)arguments[11]
#define MESA_VALUES_13 MESA_VALUES_12, (uint32_t)arguments[12]
#define MESA_VALUES_14 MESA_VALUES_13, (uint32_t)arguments[13]
#define MESA_VALUES_15 MESA_VALUES_14, (uint32_t)arguments[14]
#define MESA_VALUES_16 MESA_VALUES_15, (uint32_t)arguments[15]
#define MESA_TAKE_0
#define MESA_TAKE_1 MESA_TAKE_0 MESA_SET(d0, a0);
#define MESA_TAKE_2 MESA_TAKE_1 MESA_SET(d1, a1);
#define MESA_TAKE_3 MESA_TAKE_2 MESA_SET(d2, a2);
#define MESA_TAKE_4 MESA_TAKE_3 MESA_SET(d3, a3);
#define MESA_TAKE_5 MESA_TAKE_4 MESA_SET(d4, a4);
#define MESA_TAKE_6 MESA_TAKE_5 MESA_SET(d5, a5);
#define MESA_TAKE_7 MESA_TAKE_6 MESA_SET(d6, a6);
#define MESA_TAKE_8 MESA_TAKE_7 MESA_SET(d7, a7);
#define MESA_TAKE_9 MESA_TAKE_8 MESA_SET(d8, a8);
#define MESA_TAKE_10 MESA_TAKE_9 MESA_SET(d9, a9);
#define MESA_TAKE_11 MESA_TAKE_10 MESA_SET(d10, a10);
#define MESA_TAKE_12 MESA_TAKE_11 MESA_SET(d11, a11);
#define MESA_TAKE_13 MESA_TAKE_12 MESA_SET(d12, a12);
#define MESA_TAKE_14 MESA_TAKE_13 MESA_SET(d13, a13);
#define MESA_TAKE_15 MESA_TAKE_14 MESA_SET(d14, a14);
#define MESA_TAKE_16 MESA_TAKE_15 MESA_SET(d15, a15);

#define MESA_CODE_0(place) MESA_DECLARE(place, (MESA_PARAMETERS_0), (MESA_VALUES_0))
#define MESA_CODE_1(place) MESA_DECLARE(place, (MESA_PARAMETERS_1), (MESA_VALUES_1))
#define MESA_CODE_2(place) MESA_DECLARE(place, (MESA_PARAMETERS_2), (MESA_VALUES_2))
#define MESA_CODE_3(place) MESA_DECLARE(place, (MESA_PARAMETERS_3), (MESA_VALUES_3))
#define MESA_CODE_4(place) MESA_DECLARE(place, (MESA_PARAMETERS_4), (MESA_VALUES_4))
#define MESA_CODE_5(place) MESA_DECLARE(place, (MESA_PARAMETERS_5), (MESA_VALUES_5))
#define MESA_CODE_6(place) MESA_DECLARE(place, (MESA_PARAMETERS_6), (MESA_VALUES_6))
#define MESA_CODE_7(place) MESA_DECLARE(place, (MESA_PARAMETERS_7), (MESA_VALUES_7))
#define MESA_CODE_8(place) MESA_DECLARE(place, (MESA_PARAMETERS_8), (MESA_VALUES_8))
#define MESA_CODE_9(place) MESA_DECLARE(place, (MESA_PARAMETERS_9), (MESA_VALUES_9))
#define MESA_CODE_10(place) MESA_DECLARE(place, (MESA_PARAMETERS_10), (MESA_VALUES_10))
#define MESA_CODE_11(place) MESA_DECLARE(place, (MESA_PARAMETERS_11), (MESA_VALUES_11))
#define MESA_CODE_12(place) MESA_DECLARE(place, (MESA_PARAMETERS_12), (MESA_VALUES_12))
#define MESA_CODE_13(place) MESA_DECLARE(place, (MESA_PARAMETERS_13), (MESA_VALUES_13))
#define MESA_CODE_14(place) MESA_DECLARE(place, (MESA_PARAMETERS_14), (MESA_VALUES_14))
#define MESA_CODE_15(place) MESA_DECLARE(place, (MESA_PARAMETERS_15), (MESA_VALUES_15))
#define MESA_CODE_16(place) MESA_DECLARE(place, (MESA_PARAMETERS_16), (MESA_VALUES_16))

#define MESA_BEGIN_0(place) MESA_DEFINE(place, (MESA_PARAMETERS_0)) MESA_TAKE_0
#define MESA_BEGIN_1(place) MESA_DEFINE(place, (MESA_PARAMETERS_1)) MESA_TAKE_1
#define MESA_BEGIN_2(place) MESA_DEFINE(place, (MESA_PARAMETERS_2)) MESA_TAKE_2
#define MESA_BEGIN_3(place) MESA_DEFINE(place, (MESA_PARAMETERS_3)) MESA_TAKE_3
#define MESA_BEGIN_4(place) MESA_DEFINE(place, (MESA_PARAMETERS_4)) MESA_TAKE_4
#define MESA_BEGIN_5(place) MESA_DEFINE(place, (MESA_PARAMETERS_5)) MESA_TAKE_5
#define MESA_BEGIN_6(place) MESA_DEFINE(place, (MESA_PARAMETERS_6)) MESA_TAKE_6
#define MESA_BEGIN_7(place) MESA_DEFINE(place, (MESA_PARAMETERS_7)) MESA_TAKE_7
#define MESA_BEGIN_8(place) MESA_DEFINE(place, (MESA_PARAMETERS_8)) MESA_TAKE_8
#define MESA_BEGIN_9(place) MESA_DEFINE(place, (MESA_PARAMETERS_9)) MESA_TAKE_9
#define MESA_BEGIN_10(place) MESA_DEFINE(place, (MESA_PARAMETERS_10)) MESA_TAKE_10
#define MESA_BEGIN_11(place) MESA_DEFINE(place, (MESA_PARAMETERS_11)) MESA_TAKE_11
#define MESA_BEGIN_12(place) MESA_DEFINE(place, (MESA_PARAMETERS_12)) MESA_TAKE_12
#define MESA_BEGIN_13(place) MESA_DEFINE(place, (MESA_PARAMETERS_13)) MESA_TAKE_13
#define MESA_BEGIN_14(place) MESA_DEFINE(place, (MESA_PARAMETERS_14)) MESA_TAKE_14
#define MESA_BEGIN_15(place) MESA_DEFINE(place, (MESA_PARAMETERS_15)) MESA_TAKE_15
#define MESA_BEGIN_16(place) MESA_DEFINE(place, (MESA_PARAMETERS_16)) MESA_TAKE_16

/* ---- The instructions ---- */

#define MESA_LABEL(place) p##place: MESA_UNUSED;

#define MESA_PUSH(place, n, d)                                                                                               \
    MESA_LABEL(place)                                                                                                        \
    MESA_SET(d, n##u);                                                                                                       \
    kind_##d = mesa_monitor_kind(n##u);

#define MESA_GETL(place, i, d) MESA_LABEL(place) MESA_SET(d, l##i);
#define MESA_SETL(place, i, d) MESA_LABEL(place) l##i = d;
#define MESA_POP(place, d) MESA_LABEL(place)

/* Arithmetic and comparisons are of signed numbers. */
#define MESA_FAULTS(place, function, a, b)                                                                                   \
    MESA_LABEL(place) MESA_SET(a, (uint32_t)function(self, (int32_t)a, (int32_t)b));
#define MESA_COMPARES(place, a, operator, b) MESA_LABEL(place) MESA_SET(a, (int32_t)a operator (int32_t)b);

#define MESA_ADD(place, a, b) MESA_FAULTS(place, mesa_add, a, b)
#define MESA_SUB(place, a, b) MESA_FAULTS(place, mesa_subtract, a, b)
#define MESA_MUL(place, a, b) MESA_FAULTS(place, mesa_multiply, a, b)
#define MESA_DIV(place, a, b) MESA_FAULTS(place, mesa_divide, a, b)
#define MESA_MOD(place, a, b) MESA_FAULTS(place, mesa_modulo, a, b)
#define MESA_EQ(place, a, b) MESA_COMPARES(place, a, ==, b)
#define MESA_NE(place, a, b) MESA_COMPARES(place, a, !=, b)
#define MESA_LT(place, a, b) MESA_COMPARES(place, a, <, b)
#define MESA_LE(place, a, b) MESA_COMPARES(place, a, <=, b)
#define MESA_GT(place, a, b) MESA_COMPARES(place, a, >, b)
#define MESA_GE(place, a, b) MESA_COMPARES(place, a, >=, b)

#define MESA_BITS(place, a, operator, b)                                                                                     \
    MESA_LABEL(place)                                                                                                        \
    lock_##a = lock_##a operator lock_##b;                                                                                   \
    a = a operator b;                                                                                                        \
    kind_##a = MESA_UNTOLD;

#define MESA_BAND(place, a, b) MESA_BITS(place, a, &, b)
#define MESA_BOR(place, a, b) MESA_BITS(place, a, |, b)

#define MESA_NEG(place, a)                                                                                                   \
    MESA_LABEL(place)                                                                                                        \
    lock_##a = -lock_##a;                                                                                                    \
    a = (uint32_t)mesa_negate(self, (int32_t)a);                                                                             \
    kind_##a = MESA_UNTOLD;

#define MESA_NOT(place, a) MESA_LABEL(place) MESA_SET(a, a == 0);

#define MESA_JUMP(place, to) MESA_LABEL(place) goto p##to;

#define MESA_JZ(place, to, a)                                                                                                \
    MESA_LABEL(place)                                                                                                        \
    if (a == 0)                                                                                                              \
        goto p##to;

/* A CALL takes all operands, and what the function gives is the only one then. */
#define MESA_CALL(place, to, ...) MESA_LABEL(place) MESA_SET(d0, code_##to(self, ##__VA_ARGS__));
#define MESA_RET(place) MESA_LABEL(place) return 0;
#define MESA_RETV(place, a) MESA_LABEL(place) return a;

#define MESA_INDEX(place, b, n, a)                                                                                           \
    MESA_LABEL(place)                                                                                                        \
    if (a >= n##u || a > INT32_MAX)                                                                                          \
        mesa_fault(self, MESA_INDEX_OUT_OF_RANGE);                                                                           \
    MESA_SET(a, b##u + a);                                                                                                   \
    kind_##a = mesa_span_kind(b, n);

#define MESA_SELF(place, d)                                                                                                  \
    MESA_LABEL(place)                                                                                                        \
    MESA_SET(d, own);                                                                                                        \
    lock_##d = self->thread;

#define MESA_PADDR(place, k, a)                                                                                              \
    MESA_LABEL(place)                                                                                                        \
    of_##a = a == own ? self : mesa_process_of(a);                                                                           \
    MESA_SET(a, 1 + 6 * (a - 1) + k);                                                                                        \
    kind_##a = (enum mesa_kind)k;

#define MESA_FAULT(place, k) MESA_LABEL(place) mesa_fault(self, (enum mesa_outcome)k);

#define MESA_LOAD(place, a)                                                                                                  \
    MESA_LABEL(place)                                                                                                        \
    MESA_STEP(self, place, LOAD, a);                                                                                         \
    MESA_TELL(a)                                                                                                             \
    MESA_SET(a, mesa_load(MESA_AT(a)));

#define MESA_STORE(place, a, v)                                                                                              \
    MESA_LABEL(place)                                                                                                        \
    MESA_STEP(self, place, STORE, a);                                                                                        \
    MESA_TELL(a)                                                                                                             \
    mesa_store(self, MESA_AT(a), MESA_HALF(a, v));

/* What is done to a word of 32 bits, and answers its old value. */
#define MESA_CHANGES(place, name, operation, a, v)                                                                           \
    MESA_LABEL(place)                                                                                                        \
    MESA_STEP(self, place, name, a);                                                                                         \
    MESA_TELL(a)                                                                                                             \
    MESA_SET(a, operation(mesa_word(MESA_AT(a)), MESA_HALF(a, v)));

#define MESA_SWAP(place, a, v) MESA_CHANGES(place, SWAP, atomic_exchange, a, v)
#define MESA_AOR(place, a, v) MESA_CHANGES(place, AOR, atomic_fetch_or, a, v)
#define MESA_AADD(place, a, v) MESA_CHANGES(place, AADD, atomic_fetch_add, a, v)

#define MESA_CAS(place, a, expected, v)                                                                                      \
    MESA_LABEL(place)                                                                                                        \
    MESA_STEP(self, place, CAS, a);                                                                                          \
    MESA_TELL(a)                                                                                                             \
    MESA_SET(a, mesa_swap(mesa_word(MESA_AT(a)), MESA_HALF(a, expected), MESA_HALF(a, v)));

/* FORK to n operands from r on; its answer comes into r. */
#define MESA_FORK(place, to, n, r, ...)                                                                                      \
    MESA_LABEL(place)                                                                                                        \
    MESA_STEP(self, place, FORK, 0);                                                                                         \
    MESA_SET(r, (uint32_t)mesa_fork(self, start_##to, (const int32_t[]){r, ##__VA_ARGS__}, n));

#define MESA_PRINT(place, a)                                                                                                 \
    MESA_LABEL(place)                                                                                                        \
    MESA_STEP(self, place, PRINT, 0);                                                                                        \
    mesa_print((int32_t)a);

#define MESA_FWAIT(place, a, expected)                                                                                       \
    MESA_LABEL(place)                                                                                                        \
    MESA_STEP(self, place, FWAIT, a);                                                                                        \
    MESA_TELL(a)                                                                                                             \
    MESA_SET(a, mesa_wait_on(MESA_AT(a), MESA_HALF(a, expected)));

#define MESA_FWAKE(place, a, n)                                                                                              \
    MESA_LABEL(place)                                                                                                        \
    MESA_STEP(self, place, FWAKE, a);                                                                                        \
    MESA_TELL(a)                                                                                                             \
    MESA_SET(a, mesa_wake_on(mesa_word(MESA_AT(a)), n));

#define MESA_FREQ(place, a, b, wake, moves, expected)                                                                        \
    MESA_LABEL(place)                                                                                                        \
    MESA_STEP(self, place, FREQ, a);                                                                                         \
    MESA_TELL(a)                                                                                                             \
    MESA_TELL(b)                                                                                                             \
    MESA_SET(a, mesa_move(mesa_word(MESA_AT(a)), mesa_word(MESA_AT(b)), wake, moves, MESA_HALF(a, expected)));

#endif
