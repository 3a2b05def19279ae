/* Made from pattern files. */

typedef struct {
} arg_decode0;

typedef arg_decode0 arg_nop;
static bool trans_nop(DisasContext *ctx, arg_nop *a);

static void decode_extract_decode_Fmt_0(DisasContext *ctx, arg_decode0 *a, uint32_t insn)
{
}

static bool decode(DisasContext *ctx, uint32_t insn)
{
    union {
        arg_decode0 f_decode0;
    } u;

    if ((insn & 0xffffffff) == 0x00000000) {
        /* 1:1 */
        decode_extract_decode_Fmt_0(ctx, &u.f_decode0, insn);
        if (trans_nop(ctx, &u.f_decode0)) return true;
    }
    return false;
}
