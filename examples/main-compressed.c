/* Decodes words of RV32C by the text that decodetree makes of rv16-compressed.decode, and prints each call with the
   values that it hands over. The words were assembled by the figures of the RISC-V Unprivileged manual.
   gcc -std=gnu11 -Wall -Wextra -Wno-unused-parameter -Werror -o main-compressed main-compressed.c */
#include <inttypes.h>
#include <stdbool.h>
#include <stddef.h>
#include <stdint.h>
#include <stdio.h>

typedef struct DisasContext {
    int calls;
} DisasContext;

/* What the text takes bits out of words and puts them together with, as QEMU's include/qemu/bitops.h has it. */

static inline uint32_t extract32(uint32_t value, int start, int length)
{
    return (value >> start) & (~0U >> (32 - length));
}

static inline int32_t sextract32(uint32_t value, int start, int length)
{
    return ((int32_t)(value << (32 - length - start))) >> (32 - length);
}

static inline uint32_t deposit32(uint32_t value, int start, int length, uint32_t fieldval)
{
    uint32_t mask = (~0U >> (32 - length)) << start;

    return (value & ~mask) | ((fieldval << start) & mask);
}

/* The functions of the fields. */

static int ex_shift_1(DisasContext *ctx, int imm)
{
    return imm * 2;
}

static int ex_shift_2(DisasContext *ctx, int imm)
{
    return imm * 4;
}

static int ex_shift_4(DisasContext *ctx, int imm)
{
    return imm * 16;
}

static int ex_rvc_register(DisasContext *ctx, int reg)
{
    return reg + 8;
}

#include "rv16-compressed.c"

static bool trans_lw(DisasContext *ctx, arg_lw *a)
{
    printf(" lw imm=%d rs1=%d rd=%d", a->imm, a->rs1, a->rd);
    return true;
}

static bool trans_addi(DisasContext *ctx, arg_addi *a)
{
    printf(" addi imm=%d rs1=%d rd=%d", a->imm, a->rs1, a->rd);
    return true;
}

static bool trans_li(DisasContext *ctx, arg_li *a)
{
    printf(" li imm=%d rd=%d", a->imm, a->rd);
    return true;
}

static bool trans_lui(DisasContext *ctx, arg_lui *a)
{
    printf(" lui imm=%d rd=%d", a->imm, a->rd);
    return true;
}

static bool trans_jal(DisasContext *ctx, arg_jal *a)
{
    printf(" jal imm=%d rd=%d", a->imm, a->rd);
    return true;
}

static bool trans_jalr(DisasContext *ctx, arg_jalr *a)
{
    printf(" jalr rs1=%d rd=%d", a->rs1, a->rd);
    return true;
}

static bool trans_mv(DisasContext *ctx, arg_mv *a)
{
    printf(" mv rd=%d rs2=%d", a->rd, a->rs2);
    return true;
}

static bool trans_ebreak(DisasContext *ctx, arg_ebreak *a)
{
    printf(" ebreak");
    return true;
}

static bool trans_add(DisasContext *ctx, arg_add *a)
{
    printf(" add rd=%d rs1=%d rs2=%d", a->rd, a->rs1, a->rs2);
    return true;
}

int main(void)
{
    static const uint16_t words[] = {
        0x4044, /* c.lw x9, 4(x8) */
        0x0415, /* c.addi x8, 5 */
        0x557d, /* c.li x10, -1 */
        0x717d, /* c.addi16sp -16 */
        0x6105, /* c.addi16sp 32 */
        0x6085, /* c.lui x1, 1 */
        0x2009, /* c.jal 2 */
        0xbffd, /* c.j -2 */
        0x8082, /* c.jr x1 */
        0x852e, /* c.mv x10, x11 */
        0x9002, /* c.ebreak */
        0x9082, /* c.jalr x1 */
        0x952e, /* c.add x10, x11 */
        0x0000, /* the word that is never an instruction */
    };
    DisasContext ctx = { 0 };

    for (size_t i = 0; i < sizeof words / sizeof words[0]; i++) {
        printf("%04" PRIx16 ":", words[i]);
        bool known = decode_insn16(&ctx, words[i]);
        printf(" %s\n", known ? "true" : "false");
    }
    return 0;
}
