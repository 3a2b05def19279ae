/* Made from pattern files. */

typedef struct {
    int imm;
    int rs1;
    int rd;
} arg_i;

typedef struct {
    int imm;
    int rd;
} arg_j;

typedef struct {
    int rd;
    int rs1;
    int rs2;
} arg_r;

typedef struct {
    int imm;
    int rd;
} arg_u;

typedef struct {
    int rs1;
    int rd;
} arg_jalr;

typedef struct {
} arg_decode_insn165;

typedef arg_i arg_lw;
static bool trans_lw(DisasContext *ctx, arg_lw *a);

typedef arg_i arg_addi;
static bool trans_addi(DisasContext *ctx, arg_addi *a);

typedef arg_u arg_li;
static bool trans_li(DisasContext *ctx, arg_li *a);

typedef arg_u arg_lui;
static bool trans_lui(DisasContext *ctx, arg_lui *a);

typedef arg_j arg_jal;
static bool trans_jal(DisasContext *ctx, arg_jal *a);

typedef arg_jalr arg_jalr;
static bool trans_jalr(DisasContext *ctx, arg_jalr *a);

typedef arg_r arg_mv;
static bool trans_mv(DisasContext *ctx, arg_mv *a);

typedef arg_decode_insn165 arg_ebreak;
static bool trans_ebreak(DisasContext *ctx, arg_ebreak *a);

typedef arg_r arg_add;
static bool trans_add(DisasContext *ctx, arg_add *a);

static void decode_insn16_extract_ci(DisasContext *ctx, arg_i *a, uint16_t insn)
{
    a->imm = (int32_t)deposit32(extract32(insn, 2, 5), 5, 27, sextract32(insn, 12, 1));
    a->rs1 = extract32(insn, 7, 5);
    a->rd = extract32(insn, 7, 5);
}

static void decode_insn16_extract_cr(DisasContext *ctx, arg_r *a, uint16_t insn)
{
    a->rd = extract32(insn, 7, 5);
    a->rs1 = extract32(insn, 7, 5);
    a->rs2 = extract32(insn, 2, 5);
}

static void decode_insn16_extract_cj(DisasContext *ctx, arg_j *a, uint16_t insn)
{
    a->imm = ex_shift_1(ctx, (int32_t)deposit32(deposit32(deposit32(deposit32(deposit32(deposit32(deposit32(extract32(insn, 3, 3), 3, 29, extract32(insn, 11, 1)), 4, 28, extract32(insn, 2, 1)), 5, 27, extract32(insn, 7, 1)), 6, 26, extract32(insn, 6, 1)), 7, 25, extract32(insn, 9, 2)), 9, 23, extract32(insn, 8, 1)), 10, 22, sextract32(insn, 12, 1)));
}

static void decode_insn16_extract_cl(DisasContext *ctx, arg_i *a, uint16_t insn)
{
    a->imm = ex_shift_2(ctx, deposit32(deposit32(extract32(insn, 6, 1), 1, 31, extract32(insn, 10, 3)), 4, 28, extract32(insn, 5, 1)));
    a->rs1 = ex_rvc_register(ctx, extract32(insn, 7, 3));
    a->rd = ex_rvc_register(ctx, extract32(insn, 2, 3));
}

static void decode_insn16_extract_decode_insn16_Fmt_4(DisasContext *ctx, arg_u *a, uint16_t insn)
{
    a->imm = (int32_t)deposit32(extract32(insn, 2, 5), 5, 27, sextract32(insn, 12, 1));
    a->rd = extract32(insn, 7, 5);
}

static void decode_insn16_extract_decode_insn16_Fmt_5(DisasContext *ctx, arg_i *a, uint16_t insn)
{
    a->imm = ex_shift_4(ctx, (int32_t)deposit32(deposit32(deposit32(deposit32(extract32(insn, 6, 1), 1, 31, extract32(insn, 2, 1)), 2, 30, extract32(insn, 5, 1)), 3, 29, extract32(insn, 3, 2)), 5, 27, sextract32(insn, 12, 1)));
}

static void decode_insn16_extract_decode_insn16_Fmt_6(DisasContext *ctx, arg_jalr *a, uint16_t insn)
{
    a->rs1 = extract32(insn, 7, 5);
}

static void decode_insn16_extract_decode_insn16_Fmt_7(DisasContext *ctx, arg_decode_insn165 *a, uint16_t insn)
{
}

static bool decode_insn16(DisasContext *ctx, uint16_t insn)
{
    union {
        arg_i f_i;
        arg_j f_j;
        arg_r f_r;
        arg_u f_u;
        arg_jalr f_jalr;
        arg_decode_insn165 f_decode_insn165;
    } u;

    if ((insn & 0xe003) == 0x4000) {
        /* 1:23 */
        decode_insn16_extract_cl(ctx, &u.f_i, insn);
        if (trans_lw(ctx, &u.f_i)) return true;
    }
    if ((insn & 0xe003) == 0x0001) {
        /* 1:24 */
        decode_insn16_extract_ci(ctx, &u.f_i, insn);
        if (trans_addi(ctx, &u.f_i)) return true;
    }
    if ((insn & 0xe003) == 0x4001) {
        /* 1:25 */
        decode_insn16_extract_decode_insn16_Fmt_4(ctx, &u.f_u, insn);
        if (trans_li(ctx, &u.f_u)) return true;
    }
    if ((insn & 0xef83) == 0x6101) {
        /* 1:27 */
        decode_insn16_extract_decode_insn16_Fmt_5(ctx, &u.f_i, insn);
        u.f_i.rs1 = 2;
        u.f_i.rd = 2;
        if (trans_addi(ctx, &u.f_i)) return true;
    }
    if ((insn & 0xe003) == 0x6001) {
        /* 1:28 */
        decode_insn16_extract_decode_insn16_Fmt_4(ctx, &u.f_u, insn);
        if (trans_lui(ctx, &u.f_u)) return true;
    }
    if ((insn & 0xe003) == 0x2001) {
        /* 1:30 */
        decode_insn16_extract_cj(ctx, &u.f_j, insn);
        u.f_j.rd = 1;
        if (trans_jal(ctx, &u.f_j)) return true;
    }
    if ((insn & 0xe003) == 0xa001) {
        /* 1:31 */
        decode_insn16_extract_cj(ctx, &u.f_j, insn);
        u.f_j.rd = 0;
        if (trans_jal(ctx, &u.f_j)) return true;
    }
    if ((insn & 0xf07f) == 0x8002) {
        /* 1:33 */
        decode_insn16_extract_decode_insn16_Fmt_6(ctx, &u.f_jalr, insn);
        u.f_jalr.rd = 0;
        if (trans_jalr(ctx, &u.f_jalr)) return true;
    }
    if ((insn & 0xf003) == 0x8002) {
        /* 1:34 */
        decode_insn16_extract_cr(ctx, &u.f_r, insn);
        if (trans_mv(ctx, &u.f_r)) return true;
    }
    if ((insn & 0xffff) == 0x9002) {
        /* 1:37 */
        decode_insn16_extract_decode_insn16_Fmt_7(ctx, &u.f_decode_insn165, insn);
        if (trans_ebreak(ctx, &u.f_decode_insn165)) return true;
    }
    if ((insn & 0xf07f) == 0x9002) {
        /* 1:38 */
        decode_insn16_extract_decode_insn16_Fmt_6(ctx, &u.f_jalr, insn);
        u.f_jalr.rd = 1;
        if (trans_jalr(ctx, &u.f_jalr)) return true;
    }
    if ((insn & 0xf003) == 0x9002) {
        /* 1:39 */
        decode_insn16_extract_cr(ctx, &u.f_r, insn);
        if (trans_add(ctx, &u.f_r)) return true;
    }
    return false;
}
