/* Made from pattern files. */

typedef struct {
} arg_dec0;

typedef arg_dec0 arg_nop;
bool tr_nop(DisasContext *ctx, arg_nop *a);

static void dec_extract_dec_Fmt_0(DisasContext *ctx, arg_dec0 *a, uint32_t insn)
{
}

bool dec(DisasContext *ctx, uint32_t insn)
{
    union {
        arg_dec0 f_dec0;
    } u;

    if ((insn & 0xffffffff) == 0x00000000) {
        /* 1:1 */
        dec_extract_dec_Fmt_0(ctx, &u.f_dec0, insn);
        if (tr_nop(ctx, &u.f_dec0)) return true;
    }
    return false;
}
