/* Made from pattern files. */

typedef struct {
} arg_decode0;

typedef arg_decode0 arg_ecall;
static bool trans_ecall(DisasContext *ctx, arg_ecall *a);

typedef arg_decode0 arg_ebreak;
static bool trans_ebreak(DisasContext *ctx, arg_ebreak *a);

typedef arg_decode0 arg_fence;
static bool trans_fence(DisasContext *ctx, arg_fence *a);

typedef arg_decode0 arg_fence_i;
static bool trans_fence_i(DisasContext *ctx, arg_fence_i *a);

static void decode_extract_decode_Fmt_0(DisasContext *ctx, arg_decode0 *a, uint32_t insn)
{
}

static bool decode(DisasContext *ctx, uint32_t insn)
{
    union {
        arg_decode0 f_decode0;
    } u;

    if ((insn & 0xffffffff) == 0x00000073) {
        /* 1:2 */
        decode_extract_decode_Fmt_0(ctx, &u.f_decode0, insn);
        if (trans_ecall(ctx, &u.f_decode0)) return true;
    }
    if ((insn & 0xffffffff) == 0x00100073) {
        /* 1:3 */
        decode_extract_decode_Fmt_0(ctx, &u.f_decode0, insn);
        if (trans_ebreak(ctx, &u.f_decode0)) return true;
    }
    if ((insn & 0x0000707f) == 0x0000000f) {
        /* 1:5 */
        decode_extract_decode_Fmt_0(ctx, &u.f_decode0, insn);
        if (trans_fence(ctx, &u.f_decode0)) return true;
    }
    if ((insn & 0x0000707f) == 0x0000100f) {
        /* 1:6 */
        decode_extract_decode_Fmt_0(ctx, &u.f_decode0, insn);
        if (trans_fence_i(ctx, &u.f_decode0)) return true;
    }
    return false;
}
