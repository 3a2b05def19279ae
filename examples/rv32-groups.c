/* Made from pattern files. */

typedef struct {
} arg_decode0;

typedef struct {
    int imm;
    int rd;
} arg_decode1;

typedef struct {
    int rs1;
    int rd;
} arg_decode2;

typedef struct {
    int imm;
    int rs1;
    int rd;
} arg_decode3;

typedef arg_decode0 arg_nop;
static bool trans_nop(DisasContext *ctx, arg_nop *a);

typedef arg_decode1 arg_li;
static bool trans_li(DisasContext *ctx, arg_li *a);

typedef arg_decode2 arg_mv;
static bool trans_mv(DisasContext *ctx, arg_mv *a);

typedef arg_decode3 arg_addi;
static bool trans_addi(DisasContext *ctx, arg_addi *a);

typedef arg_decode0 arg_ecall;
static bool trans_ecall(DisasContext *ctx, arg_ecall *a);

typedef arg_decode0 arg_ebreak;
static bool trans_ebreak(DisasContext *ctx, arg_ebreak *a);

typedef arg_decode3 arg_system;
static bool trans_system(DisasContext *ctx, arg_system *a);

static void decode_extract_decode_Fmt_0(DisasContext *ctx, arg_decode0 *a, uint32_t insn)
{
}

static void decode_extract_decode_Fmt_1(DisasContext *ctx, arg_decode1 *a, uint32_t insn)
{
    a->imm = sextract32(insn, 20, 12);
    a->rd = extract32(insn, 7, 5);
}

static void decode_extract_decode_Fmt_2(DisasContext *ctx, arg_decode2 *a, uint32_t insn)
{
    a->rs1 = extract32(insn, 15, 5);
    a->rd = extract32(insn, 7, 5);
}

static void decode_extract_decode_Fmt_3(DisasContext *ctx, arg_decode3 *a, uint32_t insn)
{
    a->imm = sextract32(insn, 20, 12);
    a->rs1 = extract32(insn, 15, 5);
    a->rd = extract32(insn, 7, 5);
}

static void decode_extract_decode_Fmt_4(DisasContext *ctx, arg_decode3 *a, uint32_t insn)
{
    a->imm = extract32(insn, 20, 12);
    a->rs1 = extract32(insn, 15, 5);
    a->rd = extract32(insn, 7, 5);
}

static bool decode(DisasContext *ctx, uint32_t insn)
{
    union {
        arg_decode0 f_decode0;
        arg_decode1 f_decode1;
        arg_decode2 f_decode2;
        arg_decode3 f_decode3;
    } u;

    if ((insn & 0xffffffff) == 0x00000013) {
        /* 1:3 */
        decode_extract_decode_Fmt_0(ctx, &u.f_decode0, insn);
        if (trans_nop(ctx, &u.f_decode0)) return true;
    }
    if ((insn & 0x000ff07f) == 0x00000013) {
        /* 1:4 */
        decode_extract_decode_Fmt_1(ctx, &u.f_decode1, insn);
        if (trans_li(ctx, &u.f_decode1)) return true;
    }
    if ((insn & 0xfff0707f) == 0x00000013) {
        /* 1:5 */
        decode_extract_decode_Fmt_2(ctx, &u.f_decode2, insn);
        if (trans_mv(ctx, &u.f_decode2)) return true;
    }
    if ((insn & 0x0000707f) == 0x00000013) {
        /* 1:6 */
        decode_extract_decode_Fmt_3(ctx, &u.f_decode3, insn);
        if (trans_addi(ctx, &u.f_decode3)) return true;
    }
    if ((insn & 0xffffffff) == 0x00000073) {
        /* 1:10 */
        decode_extract_decode_Fmt_0(ctx, &u.f_decode0, insn);
        if (trans_ecall(ctx, &u.f_decode0)) return true;
    }
    if ((insn & 0xffffffff) == 0x00100073) {
        /* 1:11 */
        decode_extract_decode_Fmt_0(ctx, &u.f_decode0, insn);
        if (trans_ebreak(ctx, &u.f_decode0)) return true;
    }
    if ((insn & 0x0000707f) == 0x00000073) {
        /* 1:13 */
        decode_extract_decode_Fmt_4(ctx, &u.f_decode3, insn);
        if (trans_system(ctx, &u.f_decode3)) return true;
    }
    return false;
}
