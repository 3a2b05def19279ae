/* Made from pattern files. */

typedef struct {
    int imm;
    int rs1;
    int rd;
} arg_i;

typedef struct {
    int64_t imm;
    int rs1;
    int rs2;
} arg_s;

typedef struct {
    int imm;
    int rs2;
    int rs1;
} arg_b;

typedef struct {
    int imm;
    int rd;
} arg_decode4;

typedef struct {
    int shamt;
    int rs1;
    int rd;
} arg_decode5;

typedef arg_decode4 arg_lui;
static bool trans_lui(DisasContext *ctx, arg_lui *a);

typedef arg_decode4 arg_auipc;
static bool trans_auipc(DisasContext *ctx, arg_auipc *a);

typedef arg_decode4 arg_jal;
static bool trans_jal(DisasContext *ctx, arg_jal *a);

typedef arg_i arg_jalr;
static bool trans_jalr(DisasContext *ctx, arg_jalr *a);

typedef arg_b arg_beq;
static bool trans_beq(DisasContext *ctx, arg_beq *a);

typedef arg_b arg_bne;
static bool trans_bne(DisasContext *ctx, arg_bne *a);

typedef arg_b arg_blt;
static bool trans_blt(DisasContext *ctx, arg_blt *a);

typedef arg_b arg_bge;
static bool trans_bge(DisasContext *ctx, arg_bge *a);

typedef arg_b arg_bltu;
static bool trans_bltu(DisasContext *ctx, arg_bltu *a);

typedef arg_b arg_bgeu;
static bool trans_bgeu(DisasContext *ctx, arg_bgeu *a);

typedef arg_i arg_lb;
static bool trans_lb(DisasContext *ctx, arg_lb *a);

typedef arg_i arg_lh;
static bool trans_lh(DisasContext *ctx, arg_lh *a);

typedef arg_i arg_lw;
static bool trans_lw(DisasContext *ctx, arg_lw *a);

typedef arg_i arg_lbu;
static bool trans_lbu(DisasContext *ctx, arg_lbu *a);

typedef arg_i arg_lhu;
static bool trans_lhu(DisasContext *ctx, arg_lhu *a);

typedef arg_s arg_sb;
static bool trans_sb(DisasContext *ctx, arg_sb *a);

typedef arg_s arg_sh;
static bool trans_sh(DisasContext *ctx, arg_sh *a);

typedef arg_s arg_sw;
static bool trans_sw(DisasContext *ctx, arg_sw *a);

typedef arg_i arg_addi;
static bool trans_addi(DisasContext *ctx, arg_addi *a);

typedef arg_i arg_slti;
static bool trans_slti(DisasContext *ctx, arg_slti *a);

typedef arg_i arg_sltiu;
static bool trans_sltiu(DisasContext *ctx, arg_sltiu *a);

typedef arg_i arg_xori;
static bool trans_xori(DisasContext *ctx, arg_xori *a);

typedef arg_i arg_ori;
static bool trans_ori(DisasContext *ctx, arg_ori *a);

typedef arg_i arg_andi;
static bool trans_andi(DisasContext *ctx, arg_andi *a);

typedef arg_decode5 arg_slli;
static bool trans_slli(DisasContext *ctx, arg_slli *a);

typedef arg_decode5 arg_srli;
static bool trans_srli(DisasContext *ctx, arg_srli *a);

typedef arg_decode5 arg_srai;
static bool trans_srai(DisasContext *ctx, arg_srai *a);

typedef arg_fence arg_fence;
static bool trans_fence(DisasContext *ctx, arg_fence *a);

static void decode_extract_decode_Fmt_0(DisasContext *ctx, arg_decode4 *a, uint32_t insn)
{
    a->imm = ex_shift_12(ctx, sextract32(insn, 12, 20));
    a->rd = extract32(insn, 7, 5);
}

static void decode_extract_decode_Fmt_1(DisasContext *ctx, arg_decode4 *a, uint32_t insn)
{
    a->imm = ex_shift_1(ctx, (int32_t)deposit32(deposit32(deposit32(extract32(insn, 21, 10), 10, 22, extract32(insn, 20, 1)), 11, 21, extract32(insn, 12, 8)), 19, 13, sextract32(insn, 31, 1)));
    a->rd = extract32(insn, 7, 5);
}

static void decode_extract_decode_Fmt_2(DisasContext *ctx, arg_i *a, uint32_t insn)
{
    a->imm = sextract32(insn, 20, 12);
    a->rs1 = extract32(insn, 15, 5);
    a->rd = extract32(insn, 7, 5);
}

static void decode_extract_decode_Fmt_3(DisasContext *ctx, arg_b *a, uint32_t insn)
{
    a->imm = ex_shift_1(ctx, (int32_t)deposit32(deposit32(deposit32(extract32(insn, 8, 4), 4, 28, extract32(insn, 25, 6)), 10, 22, extract32(insn, 7, 1)), 11, 21, sextract32(insn, 31, 1)));
    a->rs2 = extract32(insn, 20, 5);
    a->rs1 = extract32(insn, 15, 5);
}

static void decode_extract_decode_Fmt_4(DisasContext *ctx, arg_s *a, uint32_t insn)
{
    a->imm = (int32_t)deposit32(extract32(insn, 7, 5), 5, 27, sextract32(insn, 25, 7));
    a->rs1 = extract32(insn, 15, 5);
    a->rs2 = extract32(insn, 20, 5);
}

static void decode_extract_decode_Fmt_5(DisasContext *ctx, arg_decode5 *a, uint32_t insn)
{
    a->shamt = extract32(insn, 20, 5);
    a->rs1 = extract32(insn, 15, 5);
    a->rd = extract32(insn, 7, 5);
}

static void decode_extract_decode_Fmt_6(DisasContext *ctx, arg_fence *a, uint32_t insn)
{
    a->pred = extract32(insn, 24, 4);
    a->succ = extract32(insn, 20, 4);
}

static bool decode(DisasContext *ctx, uint32_t insn)
{
    union {
        arg_i f_i;
        arg_s f_s;
        arg_b f_b;
        arg_fence f_fence;
        arg_decode4 f_decode4;
        arg_decode5 f_decode5;
    } u;

    if ((insn & 0x0000007f) == 0x00000037) {
        /* 1:16 */
        decode_extract_decode_Fmt_0(ctx, &u.f_decode4, insn);
        if (trans_lui(ctx, &u.f_decode4)) return true;
    }
    if ((insn & 0x0000007f) == 0x00000017) {
        /* 1:17 */
        decode_extract_decode_Fmt_0(ctx, &u.f_decode4, insn);
        if (trans_auipc(ctx, &u.f_decode4)) return true;
    }
    if ((insn & 0x0000007f) == 0x0000006f) {
        /* 1:18 */
        decode_extract_decode_Fmt_1(ctx, &u.f_decode4, insn);
        if (trans_jal(ctx, &u.f_decode4)) return true;
    }
    if ((insn & 0x0000707f) == 0x00000067) {
        /* 1:19 */
        decode_extract_decode_Fmt_2(ctx, &u.f_i, insn);
        if (trans_jalr(ctx, &u.f_i)) return true;
    }
    if ((insn & 0x0000707f) == 0x00000063) {
        /* 1:20 */
        decode_extract_decode_Fmt_3(ctx, &u.f_b, insn);
        if (trans_beq(ctx, &u.f_b)) return true;
    }
    if ((insn & 0x0000707f) == 0x00001063) {
        /* 1:21 */
        decode_extract_decode_Fmt_3(ctx, &u.f_b, insn);
        if (trans_bne(ctx, &u.f_b)) return true;
    }
    if ((insn & 0x0000707f) == 0x00004063) {
        /* 1:22 */
        decode_extract_decode_Fmt_3(ctx, &u.f_b, insn);
        if (trans_blt(ctx, &u.f_b)) return true;
    }
    if ((insn & 0x0000707f) == 0x00005063) {
        /* 1:23 */
        decode_extract_decode_Fmt_3(ctx, &u.f_b, insn);
        if (trans_bge(ctx, &u.f_b)) return true;
    }
    if ((insn & 0x0000707f) == 0x00006063) {
        /* 1:24 */
        decode_extract_decode_Fmt_3(ctx, &u.f_b, insn);
        if (trans_bltu(ctx, &u.f_b)) return true;
    }
    if ((insn & 0x0000707f) == 0x00007063) {
        /* 1:25 */
        decode_extract_decode_Fmt_3(ctx, &u.f_b, insn);
        if (trans_bgeu(ctx, &u.f_b)) return true;
    }
    if ((insn & 0x0000707f) == 0x00000003) {
        /* 1:26 */
        decode_extract_decode_Fmt_2(ctx, &u.f_i, insn);
        if (trans_lb(ctx, &u.f_i)) return true;
    }
    if ((insn & 0x0000707f) == 0x00001003) {
        /* 1:27 */
        decode_extract_decode_Fmt_2(ctx, &u.f_i, insn);
        if (trans_lh(ctx, &u.f_i)) return true;
    }
    if ((insn & 0x0000707f) == 0x00002003) {
        /* 1:28 */
        decode_extract_decode_Fmt_2(ctx, &u.f_i, insn);
        if (trans_lw(ctx, &u.f_i)) return true;
    }
    if ((insn & 0x0000707f) == 0x00004003) {
        /* 1:29 */
        decode_extract_decode_Fmt_2(ctx, &u.f_i, insn);
        if (trans_lbu(ctx, &u.f_i)) return true;
    }
    if ((insn & 0x0000707f) == 0x00005003) {
        /* 1:30 */
        decode_extract_decode_Fmt_2(ctx, &u.f_i, insn);
        if (trans_lhu(ctx, &u.f_i)) return true;
    }
    if ((insn & 0x0000707f) == 0x00000023) {
        /* 1:31 */
        decode_extract_decode_Fmt_4(ctx, &u.f_s, insn);
        if (trans_sb(ctx, &u.f_s)) return true;
    }
    if ((insn & 0x0000707f) == 0x00001023) {
        /* 1:32 */
        decode_extract_decode_Fmt_4(ctx, &u.f_s, insn);
        if (trans_sh(ctx, &u.f_s)) return true;
    }
    if ((insn & 0x0000707f) == 0x00002023) {
        /* 1:33 */
        decode_extract_decode_Fmt_4(ctx, &u.f_s, insn);
        if (trans_sw(ctx, &u.f_s)) return true;
    }
    if ((insn & 0x0000707f) == 0x00000013) {
        /* 1:34 */
        decode_extract_decode_Fmt_2(ctx, &u.f_i, insn);
        if (trans_addi(ctx, &u.f_i)) return true;
    }
    if ((insn & 0x0000707f) == 0x00002013) {
        /* 1:35 */
        decode_extract_decode_Fmt_2(ctx, &u.f_i, insn);
        if (trans_slti(ctx, &u.f_i)) return true;
    }
    if ((insn & 0x0000707f) == 0x00003013) {
        /* 1:36 */
        decode_extract_decode_Fmt_2(ctx, &u.f_i, insn);
        if (trans_sltiu(ctx, &u.f_i)) return true;
    }
    if ((insn & 0x0000707f) == 0x00004013) {
        /* 1:37 */
        decode_extract_decode_Fmt_2(ctx, &u.f_i, insn);
        if (trans_xori(ctx, &u.f_i)) return true;
    }
    if ((insn & 0x0000707f) == 0x00006013) {
        /* 1:38 */
        decode_extract_decode_Fmt_2(ctx, &u.f_i, insn);
        if (trans_ori(ctx, &u.f_i)) return true;
    }
    if ((insn & 0x0000707f) == 0x00007013) {
        /* 1:39 */
        decode_extract_decode_Fmt_2(ctx, &u.f_i, insn);
        if (trans_andi(ctx, &u.f_i)) return true;
    }
    if ((insn & 0xfe00707f) == 0x00001013) {
        /* 1:40 */
        decode_extract_decode_Fmt_5(ctx, &u.f_decode5, insn);
        if (trans_slli(ctx, &u.f_decode5)) return true;
    }
    if ((insn & 0xfe00707f) == 0x00005013) {
        /* 1:41 */
        decode_extract_decode_Fmt_5(ctx, &u.f_decode5, insn);
        if (trans_srli(ctx, &u.f_decode5)) return true;
    }
    if ((insn & 0xfe00707f) == 0x40005013) {
        /* 1:42 */
        decode_extract_decode_Fmt_5(ctx, &u.f_decode5, insn);
        if (trans_srai(ctx, &u.f_decode5)) return true;
    }
    if ((insn & 0x0000707f) == 0x0000000f) {
        /* 1:43 */
        decode_extract_decode_Fmt_6(ctx, &u.f_fence, insn);
        if (trans_fence(ctx, &u.f_fence)) return true;
    }
    return false;
}
