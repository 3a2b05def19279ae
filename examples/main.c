/* Decodes a few words of RISC-V by the text that decodetree makes of rv32-fence.decode, and prints each call.
   gcc -std=gnu11 -Wall -Werror -o main main.c */
#include <stdbool.h>
#include <stddef.h>
#include <stdint.h>
#include <stdio.h>

/* What a decoder hands to its translators, as the program that uses it wishes. */
typedef struct DisasContext {
    bool has_fence_i;
} DisasContext;

#include "rv32-fence.c"

/* One translator for each name. False says that the word isn't this instruction after all. */

static bool trans_ecall(DisasContext *ctx, arg_ecall *a)
{
    printf(" trans_ecall");
    return true;
}

static bool trans_ebreak(DisasContext *ctx, arg_ebreak *a)
{
    printf(" trans_ebreak");
    return true;
}

static bool trans_fence(DisasContext *ctx, arg_fence *a)
{
    printf(" trans_fence");
    return true;
}

static bool trans_fence_i(DisasContext *ctx, arg_fence_i *a)
{
    printf(" trans_fence_i");
    return ctx->has_fence_i;
}

int main(void)
{
    static const uint32_t words[] = {
        0x0ff0000f, /* fence iorw, iorw */
        0x8330000f, /* fence.tso */
        0x0000100f, /* fence.i */
        0x00000073, /* ecall */
        0x00100073, /* ebreak */
        0x00000013, /* nop, which the file doesn't have */
    };
    DisasContext ctx = { .has_fence_i = false };

    for (size_t i = 0; i < sizeof words / sizeof words[0]; i++) {
        printf("%08x:", (unsigned)words[i]);
        bool known = decode(&ctx, words[i]);
        printf(" %s\n", known ? "true" : "false");
    }
    return 0;
}
