/* Made from pattern files. */

typedef struct {
    int rd;
    int64_t imm;
} arg_li;

typedef struct {
    int rd;
    int64_t disp;
} arg_jump;

typedef struct {
    int rd;
    uint64_t mask;
} arg_and;

typedef arg_li arg_li;
bool wide_li(DisasContext *ctx, arg_li *a);

typedef arg_jump arg_jump;
bool wide_jump(DisasContext *ctx, arg_jump *a);

typedef arg_and arg_and;
bool wide_and(DisasContext *ctx, arg_and *a);

static void decode_wide_extract_decode_wide_Fmt_0(DisasContext *ctx, arg_li *a, uint64_t insn)
{
    a->rd = extract64(insn, 11, 5);
    a->imm = sextract64(insn, 16, 48);
}

static void decode_wide_extract_decode_wide_Fmt_1(DisasContext *ctx, arg_jump *a, uint64_t insn)
{
    a->rd = extract64(insn, 11, 5);
    a->disp = (int64_t)deposit64(deposit64(extract64(insn, 17, 23), 23, 41, extract64(insn, 40, 24)), 47, 17, sextract64(insn, 16, 1));
}

static void decode_wide_extract_decode_wide_Fmt_2(DisasContext *ctx, arg_and *a, uint64_t insn)
{
    a->rd = extract64(insn, 11, 5);
    a->mask = extract64(insn, 16, 48);
}

bool decode_wide(DisasContext *ctx, uint64_t insn)
{
    union {
        arg_li f_li;
        arg_jump f_jump;
        arg_and f_and;
    } u;

    if ((insn & 0x00000000000007ff) == 0x000000000000003f) {
        /* 1:11 */
        decode_wide_extract_decode_wide_Fmt_0(ctx, &u.f_li, insn);
        if (wide_li(ctx, &u.f_li)) return true;
    }
    if ((insn & 0x00000000000007ff) == 0x00000000000000bf) {
        /* 1:12 */
        decode_wide_extract_decode_wide_Fmt_1(ctx, &u.f_jump, insn);
        if (wide_jump(ctx, &u.f_jump)) return true;
    }
    if ((insn & 0x00000000000007ff) == 0x000000000000013f) {
        /* 1:13 */
        decode_wide_extract_decode_wide_Fmt_2(ctx, &u.f_and, insn);
        if (wide_and(ctx, &u.f_and)) return true;
    }
    return false;
}
