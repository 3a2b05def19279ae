/* Made from pattern files. */

typedef struct {
} arg_empty;

typedef struct {
    int imm;
    int rs2;
    int rs1;
} arg_b;

typedef struct {
    int imm;
    int rs1;
    int rd;
} arg_i;

typedef struct {
    int imm;
    int rd;
} arg_j;

typedef struct {
    int rd;
    int rs1;
    int rs2;
} arg_r;

typedef struct {
    int imm;
    int rs1;
    int rs2;
} arg_s;

typedef struct {
    int imm;
    int rd;
} arg_u;

typedef struct {
    int shamt;
    int rs1;
    int rd;
} arg_shift;

typedef struct {
    int aq;
    int rl;
    int rs2;
    int rs1;
    int rd;
} arg_atomic;

typedef struct {
    int op;
    int aq;
    int rl;
    int rs2;
    int rs1;
    int rd;
} arg_amo;

typedef struct {
    int pred;
    int succ;
} arg_decode10;

typedef arg_u arg_lui;
static bool trans_lui(DisasContext *ctx, arg_lui *a);

typedef arg_u arg_auipc;
static bool trans_auipc(DisasContext *ctx, arg_auipc *a);

typedef arg_j arg_jal;
static bool trans_jal(DisasContext *ctx, arg_jal *a);

typedef arg_i arg_jalr;
static bool trans_jalr(DisasContext *ctx, arg_jalr *a);

typedef arg_b arg_beq;
static bool trans_beq(DisasContext *ctx, arg_beq *a);

typedef arg_b arg_bne;
static bool trans_bne(DisasContext *ctx, arg_bne *a);

typedef arg_b arg_blt;
static bool trans_blt(DisasContext *ctx, arg_blt *a);

typedef arg_b arg_bge;
static bool trans_bge(DisasContext *ctx, arg_bge *a);

typedef arg_b arg_bltu;
static bool trans_bltu(DisasContext *ctx, arg_bltu *a);

typedef arg_b arg_bgeu;
static bool trans_bgeu(DisasContext *ctx, arg_bgeu *a);

typedef arg_i arg_lb;
static bool trans_lb(DisasContext *ctx, arg_lb *a);

typedef arg_i arg_lh;
static bool trans_lh(DisasContext *ctx, arg_lh *a);

typedef arg_i arg_lw;
static bool trans_lw(DisasContext *ctx, arg_lw *a);

typedef arg_i arg_lbu;
static bool trans_lbu(DisasContext *ctx, arg_lbu *a);

typedef arg_i arg_lhu;
static bool trans_lhu(DisasContext *ctx, arg_lhu *a);

typedef arg_s arg_sb;
static bool trans_sb(DisasContext *ctx, arg_sb *a);

typedef arg_s arg_sh;
static bool trans_sh(DisasContext *ctx, arg_sh *a);

typedef arg_s arg_sw;
static bool trans_sw(DisasContext *ctx, arg_sw *a);

typedef arg_i arg_addi;
static bool trans_addi(DisasContext *ctx, arg_addi *a);

typedef arg_i arg_slti;
static bool trans_slti(DisasContext *ctx, arg_slti *a);

typedef arg_i arg_sltiu;
static bool trans_sltiu(DisasContext *ctx, arg_sltiu *a);

typedef arg_i arg_xori;
static bool trans_xori(DisasContext *ctx, arg_xori *a);

typedef arg_i arg_ori;
static bool trans_ori(DisasContext *ctx, arg_ori *a);

typedef arg_i arg_andi;
static bool trans_andi(DisasContext *ctx, arg_andi *a);

typedef arg_shift arg_slli;
static bool trans_slli(DisasContext *ctx, arg_slli *a);

typedef arg_shift arg_srli;
static bool trans_srli(DisasContext *ctx, arg_srli *a);

typedef arg_shift arg_srai;
static bool trans_srai(DisasContext *ctx, arg_srai *a);

typedef arg_r arg_add;
static bool trans_add(DisasContext *ctx, arg_add *a);

typedef arg_r arg_sub;
static bool trans_sub(DisasContext *ctx, arg_sub *a);

typedef arg_r arg_sll;
static bool trans_sll(DisasContext *ctx, arg_sll *a);

typedef arg_r arg_slt;
static bool trans_slt(DisasContext *ctx, arg_slt *a);

typedef arg_r arg_sltu;
static bool trans_sltu(DisasContext *ctx, arg_sltu *a);

typedef arg_r arg_xor;
static bool trans_xor(DisasContext *ctx, arg_xor *a);

typedef arg_r arg_srl;
static bool trans_srl(DisasContext *ctx, arg_srl *a);

typedef arg_r arg_sra;
static bool trans_sra(DisasContext *ctx, arg_sra *a);

typedef arg_r arg_or;
static bool trans_or(DisasContext *ctx, arg_or *a);

typedef arg_r arg_and;
static bool trans_and(DisasContext *ctx, arg_and *a);

typedef arg_decode10 arg_fence;
static bool trans_fence(DisasContext *ctx, arg_fence *a);

typedef arg_empty arg_ecall;
static bool trans_ecall(DisasContext *ctx, arg_ecall *a);

typedef arg_empty arg_ebreak;
static bool trans_ebreak(DisasContext *ctx, arg_ebreak *a);

typedef arg_atomic arg_lr_w;
static bool trans_lr_w(DisasContext *ctx, arg_lr_w *a);

typedef arg_atomic arg_sc_w;
static bool trans_sc_w(DisasContext *ctx, arg_sc_w *a);

typedef arg_amo arg_amo_w;
static bool trans_amo_w(DisasContext *ctx, arg_amo_w *a);

static void decode_extract_r(DisasContext *ctx, arg_r *a, uint32_t insn)
{
    a->rd = extract32(insn, 7, 5);
    a->rs1 = extract32(insn, 15, 5);
    a->rs2 = extract32(insn, 20, 5);
}

static void decode_extract_i(DisasContext *ctx, arg_i *a, uint32_t insn)
{
    a->imm = sextract32(insn, 20, 12);
    a->rs1 = extract32(insn, 15, 5);
    a->rd = extract32(insn, 7, 5);
}

static void decode_extract_b(DisasContext *ctx, arg_b *a, uint32_t insn)
{
    a->imm = ex_shift_1(ctx, (int32_t)deposit32(deposit32(deposit32(extract32(insn, 8, 4), 4, 28, extract32(insn, 25, 6)), 10, 22, extract32(insn, 7, 1)), 11, 21, sextract32(insn, 31, 1)));
    a->rs2 = extract32(insn, 20, 5);
    a->rs1 = extract32(insn, 15, 5);
}

static void decode_extract_s(DisasContext *ctx, arg_s *a, uint32_t insn)
{
    a->imm = (int32_t)deposit32(extract32(insn, 7, 5), 5, 27, sextract32(insn, 25, 7));
    a->rs1 = extract32(insn, 15, 5);
    a->rs2 = extract32(insn, 20, 5);
}

static void decode_extract_u(DisasContext *ctx, arg_u *a, uint32_t insn)
{
    a->imm = ex_shift_12(ctx, sextract32(insn, 12, 20));
    a->rd = extract32(insn, 7, 5);
}

static void decode_extract_j(DisasContext *ctx, arg_j *a, uint32_t insn)
{
    a->imm = ex_shift_1(ctx, (int32_t)deposit32(deposit32(deposit32(extract32(insn, 21, 10), 10, 22, extract32(insn, 20, 1)), 11, 21, extract32(insn, 12, 8)), 19, 13, sextract32(insn, 31, 1)));
    a->rd = extract32(insn, 7, 5);
}

static void decode_extract_sh5(DisasContext *ctx, arg_shift *a, uint32_t insn)
{
    a->shamt = extract32(insn, 20, 5);
    a->rs1 = extract32(insn, 15, 5);
    a->rd = extract32(insn, 7, 5);
}

static void decode_extract_atomic(DisasContext *ctx, arg_atomic *a, uint32_t insn)
{
    a->aq = extract32(insn, 26, 1);
    a->rl = extract32(insn, 25, 1);
    a->rs2 = extract32(insn, 20, 5);
    a->rs1 = extract32(insn, 15, 5);
    a->rd = extract32(insn, 7, 5);
}

static void decode_extract_amo(DisasContext *ctx, arg_amo *a, uint32_t insn)
{
    a->aq = extract32(insn, 26, 1);
    a->rl = extract32(insn, 25, 1);
    a->rs2 = extract32(insn, 20, 5);
    a->rs1 = extract32(insn, 15, 5);
    a->rd = extract32(insn, 7, 5);
}

static void decode_extract_lr(DisasContext *ctx, arg_atomic *a, uint32_t insn)
{
    a->aq = extract32(insn, 26, 1);
    a->rl = extract32(insn, 25, 1);
    a->rs2 = 0;
    a->rs1 = extract32(insn, 15, 5);
    a->rd = extract32(insn, 7, 5);
}

static void decode_extract_decode_Fmt_10(DisasContext *ctx, arg_decode10 *a, uint32_t insn)
{
    a->pred = extract32(insn, 24, 4);
    a->succ = extract32(insn, 20, 4);
}

static void decode_extract_decode_Fmt_11(DisasContext *ctx, arg_empty *a, uint32_t insn)
{
}

static bool decode(DisasContext *ctx, uint32_t insn)
{
    union {
        arg_empty f_empty;
        arg_b f_b;
        arg_i f_i;
        arg_j f_j;
        arg_r f_r;
        arg_s f_s;
        arg_u f_u;
        arg_shift f_shift;
        arg_atomic f_atomic;
        arg_amo f_amo;
        arg_decode10 f_decode10;
    } u;

    if ((insn & 0x0000007f) == 0x00000037) {
        /* 1:34 */
        decode_extract_u(ctx, &u.f_u, insn);
        if (trans_lui(ctx, &u.f_u)) return true;
    }
    if ((insn & 0x0000007f) == 0x00000017) {
        /* 1:35 */
        decode_extract_u(ctx, &u.f_u, insn);
        if (trans_auipc(ctx, &u.f_u)) return true;
    }
    if ((insn & 0x0000007f) == 0x0000006f) {
        /* 1:36 */
        decode_extract_j(ctx, &u.f_j, insn);
        if (trans_jal(ctx, &u.f_j)) return true;
    }
    if ((insn & 0x0000707f) == 0x00000067) {
        /* 1:37 */
        decode_extract_i(ctx, &u.f_i, insn);
        if (trans_jalr(ctx, &u.f_i)) return true;
    }
    if ((insn & 0x0000707f) == 0x00000063) {
        /* 1:38 */
        decode_extract_b(ctx, &u.f_b, insn);
        if (trans_beq(ctx, &u.f_b)) return true;
    }
    if ((insn & 0x0000707f) == 0x00001063) {
        /* 1:39 */
        decode_extract_b(ctx, &u.f_b, insn);
        if (trans_bne(ctx, &u.f_b)) return true;
    }
    if ((insn & 0x0000707f) == 0x00004063) {
        /* 1:40 */
        decode_extract_b(ctx, &u.f_b, insn);
        if (trans_blt(ctx, &u.f_b)) return true;
    }
    if ((insn & 0x0000707f) == 0x00005063) {
        /* 1:41 */
        decode_extract_b(ctx, &u.f_b, insn);
        if (trans_bge(ctx, &u.f_b)) return true;
    }
    if ((insn & 0x0000707f) == 0x00006063) {
        /* 1:42 */
        decode_extract_b(ctx, &u.f_b, insn);
        if (trans_bltu(ctx, &u.f_b)) return true;
    }
    if ((insn & 0x0000707f) == 0x00007063) {
        /* 1:43 */
        decode_extract_b(ctx, &u.f_b, insn);
        if (trans_bgeu(ctx, &u.f_b)) return true;
    }
    if ((insn & 0x0000707f) == 0x00000003) {
        /* 1:44 */
        decode_extract_i(ctx, &u.f_i, insn);
        if (trans_lb(ctx, &u.f_i)) return true;
    }
    if ((insn & 0x0000707f) == 0x00001003) {
        /* 1:45 */
        decode_extract_i(ctx, &u.f_i, insn);
        if (trans_lh(ctx, &u.f_i)) return true;
    }
    if ((insn & 0x0000707f) == 0x00002003) {
        /* 1:46 */
        decode_extract_i(ctx, &u.f_i, insn);
        if (trans_lw(ctx, &u.f_i)) return true;
    }
    if ((insn & 0x0000707f) == 0x00004003) {
        /* 1:47 */
        decode_extract_i(ctx, &u.f_i, insn);
        if (trans_lbu(ctx, &u.f_i)) return true;
    }
    if ((insn & 0x0000707f) == 0x00005003) {
        /* 1:48 */
        decode_extract_i(ctx, &u.f_i, insn);
        if (trans_lhu(ctx, &u.f_i)) return true;
    }
    if ((insn & 0x0000707f) == 0x00000023) {
        /* 1:49 */
        decode_extract_s(ctx, &u.f_s, insn);
        if (trans_sb(ctx, &u.f_s)) return true;
    }
    if ((insn & 0x0000707f) == 0x00001023) {
        /* 1:50 */
        decode_extract_s(ctx, &u.f_s, insn);
        if (trans_sh(ctx, &u.f_s)) return true;
    }
    if ((insn & 0x0000707f) == 0x00002023) {
        /* 1:51 */
        decode_extract_s(ctx, &u.f_s, insn);
        if (trans_sw(ctx, &u.f_s)) return true;
    }
    if ((insn & 0x0000707f) == 0x00000013) {
        /* 1:52 */
        decode_extract_i(ctx, &u.f_i, insn);
        if (trans_addi(ctx, &u.f_i)) return true;
    }
    if ((insn & 0x0000707f) == 0x00002013) {
        /* 1:53 */
        decode_extract_i(ctx, &u.f_i, insn);
        if (trans_slti(ctx, &u.f_i)) return true;
    }
    if ((insn & 0x0000707f) == 0x00003013) {
        /* 1:54 */
        decode_extract_i(ctx, &u.f_i, insn);
        if (trans_sltiu(ctx, &u.f_i)) return true;
    }
    if ((insn & 0x0000707f) == 0x00004013) {
        /* 1:55 */
        decode_extract_i(ctx, &u.f_i, insn);
        if (trans_xori(ctx, &u.f_i)) return true;
    }
    if ((insn & 0x0000707f) == 0x00006013) {
        /* 1:56 */
        decode_extract_i(ctx, &u.f_i, insn);
        if (trans_ori(ctx, &u.f_i)) return true;
    }
    if ((insn & 0x0000707f) == 0x00007013) {
        /* 1:57 */
        decode_extract_i(ctx, &u.f_i, insn);
        if (trans_andi(ctx, &u.f_i)) return true;
    }
    if ((insn & 0xfe00707f) == 0x00001013) {
        /* 1:58 */
        decode_extract_sh5(ctx, &u.f_shift, insn);
        if (trans_slli(ctx, &u.f_shift)) return true;
    }
    if ((insn & 0xfe00707f) == 0x00005013) {
        /* 1:59 */
        decode_extract_sh5(ctx, &u.f_shift, insn);
        if (trans_srli(ctx, &u.f_shift)) return true;
    }
    if ((insn & 0xfe00707f) == 0x40005013) {
        /* 1:60 */
        decode_extract_sh5(ctx, &u.f_shift, insn);
        if (trans_srai(ctx, &u.f_shift)) return true;
    }
    if ((insn & 0xfe00707f) == 0x00000033) {
        /* 1:61 */
        decode_extract_r(ctx, &u.f_r, insn);
        if (trans_add(ctx, &u.f_r)) return true;
    }
    if ((insn & 0xfe00707f) == 0x40000033) {
        /* 1:62 */
        decode_extract_r(ctx, &u.f_r, insn);
        if (trans_sub(ctx, &u.f_r)) return true;
    }
    if ((insn & 0xfe00707f) == 0x00001033) {
        /* 1:63 */
        decode_extract_r(ctx, &u.f_r, insn);
        if (trans_sll(ctx, &u.f_r)) return true;
    }
    if ((insn & 0xfe00707f) == 0x00002033) {
        /* 1:64 */
        decode_extract_r(ctx, &u.f_r, insn);
        if (trans_slt(ctx, &u.f_r)) return true;
    }
    if ((insn & 0xfe00707f) == 0x00003033) {
        /* 1:65 */
        decode_extract_r(ctx, &u.f_r, insn);
        if (trans_sltu(ctx, &u.f_r)) return true;
    }
    if ((insn & 0xfe00707f) == 0x00004033) {
        /* 1:66 */
        decode_extract_r(ctx, &u.f_r, insn);
        if (trans_xor(ctx, &u.f_r)) return true;
    }
    if ((insn & 0xfe00707f) == 0x00005033) {
        /* 1:67 */
        decode_extract_r(ctx, &u.f_r, insn);
        if (trans_srl(ctx, &u.f_r)) return true;
    }
    if ((insn & 0xfe00707f) == 0x40005033) {
        /* 1:68 */
        decode_extract_r(ctx, &u.f_r, insn);
        if (trans_sra(ctx, &u.f_r)) return true;
    }
    if ((insn & 0xfe00707f) == 0x00006033) {
        /* 1:69 */
        decode_extract_r(ctx, &u.f_r, insn);
        if (trans_or(ctx, &u.f_r)) return true;
    }
    if ((insn & 0xfe00707f) == 0x00007033) {
        /* 1:70 */
        decode_extract_r(ctx, &u.f_r, insn);
        if (trans_and(ctx, &u.f_r)) return true;
    }
    if ((insn & 0x0000707f) == 0x0000000f) {
        /* 1:71 */
        decode_extract_decode_Fmt_10(ctx, &u.f_decode10, insn);
        if (trans_fence(ctx, &u.f_decode10)) return true;
    }
    if ((insn & 0xffffffff) == 0x00000073) {
        /* 1:72 */
        decode_extract_decode_Fmt_11(ctx, &u.f_empty, insn);
        if (trans_ecall(ctx, &u.f_empty)) return true;
    }
    if ((insn & 0xffffffff) == 0x00100073) {
        /* 1:73 */
        decode_extract_decode_Fmt_11(ctx, &u.f_empty, insn);
        if (trans_ebreak(ctx, &u.f_empty)) return true;
    }
    if ((insn & 0xf9f0707f) == 0x1000202f) {
        /* 1:75 */
        decode_extract_lr(ctx, &u.f_atomic, insn);
        if (trans_lr_w(ctx, &u.f_atomic)) return true;
    }
    if ((insn & 0xf800707f) == 0x1800202f) {
        /* 1:76 */
        decode_extract_atomic(ctx, &u.f_atomic, insn);
        if (trans_sc_w(ctx, &u.f_atomic)) return true;
    }
    if ((insn & 0xf800707f) == 0x0000202f) {
        /* 1:77 */
        decode_extract_amo(ctx, &u.f_amo, insn);
        u.f_amo.op = 0;
        if (trans_amo_w(ctx, &u.f_amo)) return true;
    }
    if ((insn & 0xf800707f) == 0x0800202f) {
        /* 1:78 */
        decode_extract_amo(ctx, &u.f_amo, insn);
        u.f_amo.op = 1;
        if (trans_amo_w(ctx, &u.f_amo)) return true;
    }
    return false;
}
