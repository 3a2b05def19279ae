/* Decodes words of 64 bits by the text that decodetree makes of wide64.decode, and prints each call with the values that
   it hands over.
   gcc -std=gnu11 -Wall -Wextra -Wno-unused-parameter -Werror -o main-wide main-wide.c */
#include <inttypes.h>
#include <stdbool.h>
#include <stddef.h>
#include <stdint.h>
#include <stdio.h>

typedef struct DisasContext {
    int calls;
} DisasContext;

/* What the text takes bits out of words and puts them together with, as QEMU's include/qemu/bitops.h has it. */

static inline uint64_t extract64(uint64_t value, int start, int length)
{
    return (value >> start) & (~0ULL >> (64 - length));
}

static inline int64_t sextract64(uint64_t value, int start, int length)
{
    return ((int64_t)(value << (64 - length - start))) >> (64 - length);
}

static inline uint64_t deposit64(uint64_t value, int start, int length, uint64_t fieldval)
{
    uint64_t mask = (~0ULL >> (64 - length)) << start;

    return (value & ~mask) | ((fieldval << start) & mask);
}

#include "wide64.c"

bool wide_li(DisasContext *ctx, arg_li *a)
{
    printf(" li rd=%d imm=%" PRId64, a->rd, a->imm);
    return true;
}

bool wide_jump(DisasContext *ctx, arg_jump *a)
{
    printf(" jump rd=%d disp=%" PRId64, a->rd, a->disp);
    return true;
}

bool wide_and(DisasContext *ctx, arg_and *a)
{
    printf(" and rd=%d mask=%" PRIu64, a->rd, a->mask);
    return true;
}

int main(void)
{
    static const uint64_t words[] = {
        0x000000000001083f, /* li 1, 1 */
        0xfffffffffffff83f, /* li 31, -1 */
        0x800000000000083f, /* li 1, -2^47 */
        0x7fffffffffff083f, /* li 1, 2^47 - 1 */
        0x00000000000208bf, /* jump 1: the lowest of the lower bits */
        0x00000100000008bf, /* jump 1: the lowest of the upper bits */
        0x00000000000108bf, /* jump 1: the sign alone */
        0xffffffffffff08bf, /* jump 1, -1 */
        0xffffffffffff093f, /* and 1, 2^48 - 1 */
        0x00000000000009bf, /* an operation that the file doesn't have */
        0x000000000001003b, /* another length */
    };
    DisasContext ctx = { 0 };

    for (size_t i = 0; i < sizeof words / sizeof words[0]; i++) {
        printf("%016" PRIx64 ":", words[i]);
        bool known = decode_wide(&ctx, words[i]);
        printf(" %s\n", known ? "true" : "false");
    }
    return 0;
}
