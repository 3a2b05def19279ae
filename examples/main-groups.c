/* Decodes words of RV32I by the text that decodetree makes of rv32-groups.decode, and prints each call with the values
   that it hands over. The words were assembled by the figures of the RISC-V Unprivileged manual.
   gcc -std=gnu11 -Wall -Wextra -Werror -o main-groups main-groups.c */
#include <inttypes.h>
#include <stdbool.h>
#include <stddef.h>
#include <stdint.h>
#include <stdio.h>

/* Which translators take no word: a core may leave them to the more general instruction. */
typedef struct DisasContext {
    bool has_nop;
    bool has_mv;
} DisasContext;

/* What the text takes bits out of words with, as QEMU's include/qemu/bitops.h has it. */

static inline uint32_t extract32(uint32_t value, int start, int length)
{
    return (value >> start) & (~0U >> (32 - length));
}

static inline int32_t sextract32(uint32_t value, int start, int length)
{
    return ((int32_t)(value << (32 - length - start))) >> (32 - length);
}

/* What is handed a context, or arguments, may have no use for them. */
#pragma GCC diagnostic ignored "-Wunused-parameter"

#include "rv32-groups.c"

static bool trans_nop(DisasContext *ctx, arg_nop *a)
{
    printf(" nop");
    return ctx->has_nop;
}

static bool trans_li(DisasContext *ctx, arg_li *a)
{
    printf(" li imm=%d rd=%d", a->imm, a->rd);
    return true;
}

static bool trans_mv(DisasContext *ctx, arg_mv *a)
{
    printf(" mv rs1=%d rd=%d", a->rs1, a->rd);
    return ctx->has_mv;
}

static bool trans_addi(DisasContext *ctx, arg_addi *a)
{
    printf(" addi imm=%d rs1=%d rd=%d", a->imm, a->rs1, a->rd);
    return true;
}

static bool trans_ecall(DisasContext *ctx, arg_ecall *a)
{
    printf(" ecall");
    return true;
}

static bool trans_ebreak(DisasContext *ctx, arg_ebreak *a)
{
    printf(" ebreak");
    return false;
}

static bool trans_system(DisasContext *ctx, arg_system *a)
{
    printf(" system imm=%d rs1=%d rd=%d", a->imm, a->rs1, a->rd);
    return false;
}

int main(void)
{
    static const uint32_t words[] = {
        0x00000013, /* addi x0, x0, 0 */
        0x00500093, /* addi x1, x0, 5 */
        0x00010093, /* addi x1, x2, 0 */
        0xfff10093, /* addi x1, x2, -1 */
        0x00000073, /* ecall */
        0x00100073, /* ebreak */
        0x30200073, /* mret */
        0x0000000f, /* a fence, which the file doesn't have */
    };
    DisasContext ctx = { .has_nop = false, .has_mv = true };

    for (size_t i = 0; i < sizeof words / sizeof words[0]; i++) {
        printf("%08" PRIx32 ":", words[i]);
        bool known = decode(&ctx, words[i]);
        printf(" %s\n", known ? "true" : "false");
    }
    return 0;
}
