/* Decodes words of RV32I and of some atomics by the text that decodetree makes of rv32-formats.decode, and prints each
   call with the values that it hands over. The words were assembled by the figures of the RISC-V Unprivileged manual.
   gcc -std=gnu11 -Wall -Wextra -Werror -o main-formats main-formats.c */
#include <inttypes.h>
#include <stdbool.h>
#include <stddef.h>
#include <stdint.h>
#include <stdio.h>

typedef struct DisasContext {
    uint32_t word;
} DisasContext;

/* What the text takes bits out of words and puts them together with, as QEMU's include/qemu/bitops.h has it. */

static inline uint32_t extract32(uint32_t value, int start, int length)
{
    return (value >> start) & (~0U >> (32 - length));
}

static inline int32_t sextract32(uint32_t value, int start, int length)
{
    return ((int32_t)(value << (32 - length - start))) >> (32 - length);
}

static inline uint32_t deposit32(uint32_t value, int start, int length, uint32_t fieldval)
{
    uint32_t mask = (~0U >> (32 - length)) << start;

    return (value & ~mask) | ((fieldval << start) & mask);
}

/* What is handed a context, or arguments, may have no use for them. */
#pragma GCC diagnostic ignored "-Wunused-parameter"

/* The functions of the fields. */

static int ex_shift_1(DisasContext *ctx, int imm)
{
    return imm * 2;
}

static int ex_shift_12(DisasContext *ctx, int imm)
{
    return imm * 4096;
}

#include "rv32-formats.c"

/* One translator for each name; those with one set of arguments print the same of them, in the order of the set. */

#define TRANSLATOR(NAME, ...) \
    static bool trans_##NAME(DisasContext *ctx, arg_##NAME *a) \
    { \
        printf("%08" PRIx32 ": %s", ctx->word, #NAME); \
        __VA_ARGS__ \
        printf("\n"); \
        return true; \
    }
#define PRINT(ARGUMENT) printf(" %s=%d", #ARGUMENT, a->ARGUMENT);
#define B(NAME) TRANSLATOR(NAME, PRINT(imm) PRINT(rs2) PRINT(rs1))
#define I(NAME) TRANSLATOR(NAME, PRINT(imm) PRINT(rs1) PRINT(rd))
#define R(NAME) TRANSLATOR(NAME, PRINT(rd) PRINT(rs1) PRINT(rs2))
#define S(NAME) TRANSLATOR(NAME, PRINT(imm) PRINT(rs1) PRINT(rs2))
#define U(NAME) TRANSLATOR(NAME, PRINT(imm) PRINT(rd))
#define SHIFT(NAME) TRANSLATOR(NAME, PRINT(shamt) PRINT(rs1) PRINT(rd))
#define ATOMIC(NAME) TRANSLATOR(NAME, PRINT(aq) PRINT(rl) PRINT(rs2) PRINT(rs1) PRINT(rd))

U(lui) U(auipc) U(jal)
I(jalr) I(lb) I(lh) I(lw) I(lbu) I(lhu) I(addi) I(slti) I(sltiu) I(xori) I(ori) I(andi)
B(beq) B(bne) B(blt) B(bge) B(bltu) B(bgeu)
S(sb) S(sh) S(sw)
SHIFT(slli) SHIFT(srli) SHIFT(srai)
R(add) R(sub) R(sll) R(slt) R(sltu) R(xor) R(srl) R(sra) R(or) R(and)
TRANSLATOR(fence, PRINT(pred) PRINT(succ))
TRANSLATOR(ecall) TRANSLATOR(ebreak)
ATOMIC(lr_w) ATOMIC(sc_w)
TRANSLATOR(amo_w, PRINT(op) PRINT(aq) PRINT(rl) PRINT(rs2) PRINT(rs1) PRINT(rd))

int main(void)
{
    static const uint32_t words[] = {
        0x123452b7, /* lui x5, 0x12345 */
        0xffffffb7, /* lui x31, 0xfffff */
        0x00000517, /* auipc x10, 0 */
        0x80000197, /* auipc x3, 0x80000 */
        0x008000ef, /* jal x1, 8 */
        0xffdff06f, /* jal x0, -4 */
        0x7ffff2ef, /* jal x5, 1048574 */
        0x80000fef, /* jal x31, -1048576 */
        0x001003ef, /* jal x7, 2048 */
        0x00008067, /* jalr x0, 0(x1) */
        0x800f80e7, /* jalr x1, -2048(x31) */
        0xfe000ee3, /* beq x0, x0, -4 */
        0x002090e3, /* bne x1, x2, 2048 */
        0x800fc063, /* blt x31, x0, -4096 */
        0x7eb55fe3, /* bge x10, x11, 4094 */
        0x0062e163, /* bltu x5, x6, 2 */
        0x41c3f063, /* bgeu x7, x28, 1024 */
        0xfff10083, /* lb x1, -1(x2) */
        0x7fe21183, /* lh x3, 2046(x4) */
        0x00c12083, /* lw x1, 12(x2) */
        0x00004f83, /* lbu x31, 0(x0) */
        0x80045483, /* lhu x9, -2048(x8) */
        0xffff0fa3, /* sb x31, -1(x30) */
        0x7e009fa3, /* sh x0, 2047(x1) */
        0x00112623, /* sw x1, 12(x2) */
        0x8108a023, /* sw x16, -2048(x17) */
        0x00000013, /* addi x0, x0, 0 */
        0xff010113, /* addi x2, x2, -16 */
        0x7ff32293, /* slti x5, x6, 2047 */
        0x00153513, /* sltiu x10, x10, 1 */
        0xfff54513, /* xori x10, x10, -1 */
        0x80016093, /* ori x1, x2, -2048 */
        0x0ff7f793, /* andi x15, x15, 255 */
        0x00451513, /* slli x10, x10, 4 */
        0x01f01f93, /* slli x31, x0, 31 */
        0x00455513, /* srli x10, x10, 4 */
        0x40455513, /* srai x10, x10, 4 */
        0x41ffd093, /* srai x1, x31, 31 */
        0x00b50533, /* add x10, x10, x11 */
        0x40b50533, /* sub x10, x10, x11 */
        0x003110b3, /* sll x1, x2, x3 */
        0x0062a233, /* slt x4, x5, x6 */
        0x009433b3, /* sltu x7, x8, x9 */
        0x01df4fb3, /* xor x31, x30, x29 */
        0x0128d833, /* srl x16, x17, x18 */
        0x415a59b3, /* sra x19, x20, x21 */
        0x018beb33, /* or x22, x23, x24 */
        0x01bd7cb3, /* and x25, x26, x27 */
        0x100522af, /* lr.w x5, (x10) */
        0x16002faf, /* lr.w.aqrl x31, (x0) */
        0x186522af, /* sc.w x5, x6, (x10) */
        0x1a21a0af, /* sc.w.rl x1, x2, (x3) */
        0x006522af, /* amoadd.w x5, x6, (x10) */
        0x0c6522af, /* amoswap.w.aq x5, x6, (x10) */
        0x07eeafaf, /* amoadd.w.aqrl x31, x30, (x29) */
        0x0ff0000f, /* fence iorw, iorw */
        0x0310000f, /* fence rw, w */
        0x8330000f, /* fence.tso */
        0x00000073, /* ecall */
        0x00100073, /* ebreak */
        0x30200073, /* mret, which is privileged */
        0x0000100f, /* fence.i, of an extension of its own */
        0x02b50533, /* mul x10, x10, x11, of RV32M */
        0x40451513, /* slli with the bit that makes an srli an srai */
        0x1065222f, /* lr.w x4, (x10) with an rs2 that isn't 0 */
        0x00000000, /* no instruction */
        0xffffffff, /* no instruction */
    };

    for (size_t i = 0; i < sizeof words / sizeof words[0]; i++) {
        DisasContext ctx = { .word = words[i] };
        if (!decode(&ctx, words[i])) {
            printf("%08" PRIx32 ": nothing\n", words[i]);
        }
    }
    return 0;
}
