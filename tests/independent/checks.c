/* What is refused: document 01, "The clerk's numbers" and "Fields", and document 02's ops and limit. */
#include "independent.h"

bool ind_settings_good(const uint32_t settings[8])
{
    for (int i = 0; i < 2; i++)
        if (settings[i] != 1 && settings[i] != 2) return false;
    for (int i = 2; i < 8; i++)
        if (settings[i] > 1023) return false;
    return true;
}

bool ind_slot_good(unsigned slot, uint32_t word)
{
    switch (slot) {
    case SLOT_CONFIG: return word < 1u << 18;
    case SLOT_FLAG:
    case SLOT_USE:    return word < 2;
    case SLOT_MISC:   return word < 1u << 12;
    default:          return true;
    }
}

bool ind_image_good(const uint32_t *image)
{
    for (unsigned i = 0; i < IMAGE_WORDS; i++)
        if (!ind_slot_good(i / LANES, image[i])) return false;
    return true;
}

bool ind_op_known(uint32_t op) { return op >= LOAD && op < OPS; }

/* One line for each sentence of "Fields", and M-101's; a field that is not named must be 0. */
uint32_t ind_insn_fault(const uint32_t insn[6])
{
    const uint32_t imm = insn[F_IMM], vb = insn[F_VB], vc = insn[F_VC], vd = insn[F_VD], mod = insn[F_MOD];
    const bool no_imm = imm == 0, no_vb = vb == 0, no_vc = vc == 0, no_vd = vd == 0;
    const bool reg_vb = vb < 16, reg_vc = vc < 16, reg_vd = vd < 16, any_mod = mod < 16, mod01 = mod < 2;
    bool good;

    switch (insn[F_OP]) {
    case LOAD:   good = imm < 1024 && vb < 4 && no_vc && reg_vd && any_mod; break;
    case LOADI:  good = imm < 65536 && no_vb && no_vc && reg_vd && (mod == 8 || mod == 10); break;
    case CONFIG: good = imm < 65536 && no_vb && no_vc && reg_vd && any_mod; break;
    case LUT:    good = no_imm && no_vb && no_vc && reg_vd && (mod == 0 || mod == 4 || mod == 8 || mod == 12); break;
    case SWAP:   good = no_imm && no_vb && reg_vc && reg_vd && any_mod; break;
    case IADD:   good = imm < 4096 && no_vb && reg_vc && reg_vd && any_mod; break;
    case AND:
    case OR:     good = no_imm && (mod == 1 ? reg_vb : no_vb) && reg_vc && reg_vd && mod01; break;
    case XOR:
    case NOT:    good = no_imm && no_vb && reg_vc && reg_vd && mod == 0; break;
    case ABS:
    case EXMAN:  good = no_imm && no_vb && reg_vc && reg_vd && mod01; break;
    case LZ:     good = no_imm && no_vb && reg_vc && reg_vd && any_mod && mod % 2 == 0; break;
    case EXEXP:  good = no_imm && no_vb && reg_vc && reg_vd && any_mod && (mod & 4) == 0; break;
    case NOP:    good = no_imm && no_vb && no_vc && no_vd && mod == 0; break;
    case STORE:  good = imm < 1024 && vb < 4 && no_vc && reg_vd && (mod == 2 || mod == 6 || mod == 7 || mod == 9); break;
    default:     return 7;
    }
    if (!good) return 8;
    if (insn[F_OP] == LOAD && (mod == 3 || mod == 4 || mod == 10 || mod == 12)) return 9;
    return 0;
}

uint32_t ind_list_fault(const uint32_t *list, size_t count, uint32_t *place)
{
    for (size_t i = 0; i < count; i++) {
        uint32_t fault = ind_insn_fault(list + 6 * i);
        if (fault != 0) {
            *place = (uint32_t)i;
            return fault;
        }
    }
    *place = 0;
    return 0;
}

/* 1 to 6: of what is lent, whatever the list's words are. */
uint32_t ind_lent_fault(const uint32_t settings[8], const uint32_t *image, size_t image_len, size_t dst_len, size_t list_len)
{
    if (image_len != IMAGE_WORDS) return 1;
    if (dst_len != DST_CELLS) return 2;
    if (!ind_settings_good(settings)) return 3;
    if (list_len % 6 != 0) return 4;
    if (list_len / 6 > MAX_INSNS) return 5;
    return ind_image_good(image) ? 0 : 6;
}

uint32_t ind_run_fault(const uint32_t settings[8], const uint32_t *image, size_t image_len, size_t dst_len,
                       const uint32_t *list, size_t list_len, uint32_t *place)
{
    uint32_t fault = ind_lent_fault(settings, image, image_len, dst_len, list_len);
    *place = 0;
    return fault != 0 ? fault : ind_list_fault(list, list_len / 6, place);
}
