/* Decodes some hundred words of RISC-V by the text that decodetree makes of rv32-operands.decode, and prints each call
   with the values that it hands over.
   gcc -std=gnu11 -Wall -Werror -o main-operands main-operands.c */
#include <inttypes.h>
#include <stdbool.h>
#include <stddef.h>
#include <stdint.h>
#include <stdio.h>

typedef struct DisasContext {
    uint32_t word;
} DisasContext;

/* The set with `!extern`: the text uses it, and declares the others. */
typedef struct {
    uint8_t pred;
    uint8_t succ;
} arg_fence;

/* What the text takes bits out of words and puts them together with, as QEMU's include/qemu/bitops.h has it. */

static inline uint32_t extract32(uint32_t value, int start, int length)
{
    return (value >> start) & (~0U >> (32 - length));
}

static inline int32_t sextract32(uint32_t value, int start, int length)
{
    return ((int32_t)(value << (32 - length - start))) >> (32 - length);
}

static inline uint32_t deposit32(uint32_t value, int start, int length, uint32_t fieldval)
{
    uint32_t mask = (~0U >> (32 - length)) << start;

    return (value & ~mask) | ((fieldval << start) & mask);
}

/* The functions of the fields. */

static int ex_shift_1(DisasContext *ctx, int imm)
{
    return imm * 2;
}

static int ex_shift_12(DisasContext *ctx, int imm)
{
    return imm * 4096;
}

#include "rv32-operands.c"

/* One translator for each name; those with one set of arguments print the same of them. */

#define U(NAME) \
    static bool trans_##NAME(DisasContext *ctx, arg_##NAME *a) \
    { \
        printf("%08" PRIx32 ": %s imm=%d rd=%d\n", ctx->word, #NAME, a->imm, a->rd); \
        return true; \
    }
#define I(NAME) \
    static bool trans_##NAME(DisasContext *ctx, arg_##NAME *a) \
    { \
        printf("%08" PRIx32 ": %s imm=%d rs1=%d rd=%d\n", ctx->word, #NAME, a->imm, a->rs1, a->rd); \
        return true; \
    }
#define S(NAME) \
    static bool trans_##NAME(DisasContext *ctx, arg_##NAME *a) \
    { \
        printf("%08" PRIx32 ": %s imm=%" PRId64 " rs1=%d rs2=%d\n", ctx->word, #NAME, a->imm, a->rs1, a->rs2); \
        return true; \
    }
#define B(NAME) \
    static bool trans_##NAME(DisasContext *ctx, arg_##NAME *a) \
    { \
        printf("%08" PRIx32 ": %s imm=%d rs2=%d rs1=%d\n", ctx->word, #NAME, a->imm, a->rs2, a->rs1); \
        return true; \
    }
#define SHIFT(NAME) \
    static bool trans_##NAME(DisasContext *ctx, arg_##NAME *a) \
    { \
        printf("%08" PRIx32 ": %s shamt=%d rs1=%d rd=%d\n", ctx->word, #NAME, a->shamt, a->rs1, a->rd); \
        return true; \
    }

U(lui) U(auipc) U(jal)
I(jalr) I(lb) I(lh) I(lw) I(lbu) I(lhu) I(addi) I(slti) I(sltiu) I(xori) I(ori) I(andi)
S(sb) S(sh) S(sw)
B(beq) B(bne) B(blt) B(bge) B(bltu) B(bgeu)
SHIFT(slli) SHIFT(srli) SHIFT(srai)

static bool trans_fence(DisasContext *ctx, arg_fence *a)
{
    printf("%08" PRIx32 ": %s pred=%d succ=%d\n", ctx->word, "fence", a->pred, a->succ);
    return true;
}

int main(void)
{
    static const uint32_t opcodes[] = { 0x37, 0x17, 0x6f, 0x67, 0x63, 0x03, 0x23, 0x13, 0x0f };
    uint32_t random = 1;

    for (int i = 0; i < 450; i++) {
        random = random * 1664525 + 1013904223;
        /* Each opcode of the file in turn; in some words the bits 25 to 31 are those of a shift. */
        uint32_t word = (random & ~UINT32_C(0x7f)) | opcodes[i % 9];
        if (i % 2 == 0) {
            word = (word & 0x01ffffff) | (i % 4 == 0 ? 0x40000000 : 0);
        }
        DisasContext ctx = { .word = word };
        if (!decode(&ctx, word)) {
            printf("%08" PRIx32 ": nothing\n", word);
        }
    }
    return 0;
}
