/* Names to print, beside replay.h: of the ops, as a listing writes them, and of the answers, in the clerk's words. Never NULL. */
#ifndef REPLAY_TEXT_H
#define REPLAY_TEXT_H

#include "replay.h"

/* The name of an op, or "unknown". */
static inline const char *replay_op_name(uint32_t op)
{
    switch (op) {
    case REPLAY_OP_LOAD: return "LOAD";
    case REPLAY_OP_LOADI: return "LOADI";
    case REPLAY_OP_LUT: return "LUT";
    case REPLAY_OP_SWAP: return "SWAP";
    case REPLAY_OP_CONFIG: return "CONFIG";
    case REPLAY_OP_IADD: return "IADD";
    case REPLAY_OP_ABS: return "ABS";
    case REPLAY_OP_AND: return "AND";
    case REPLAY_OP_OR: return "OR";
    case REPLAY_OP_XOR: return "XOR";
    case REPLAY_OP_NOT: return "NOT";
    case REPLAY_OP_LZ: return "LZ";
    case REPLAY_OP_EXEXP: return "EXEXP";
    case REPLAY_OP_EXMAN: return "EXMAN";
    case REPLAY_OP_NOP: return "NOP";
    case REPLAY_OP_STORE: return "STORE";
    default: return "unknown";
    }
}

/* When an answer is given, or "unknown". */
static inline const char *replay_refusal_text(uint32_t answer)
{
    switch (answer) {
    case REPLAY_DONE: return "all done";
    case REPLAY_BAD_IMAGE_LENGTH: return "image not 768 words";
    case REPLAY_BAD_DST_LENGTH: return "Dst not 16,384 cells";
    case REPLAY_BAD_SETTING: return "a setting outside its range";
    case REPLAY_BAD_LIST_LENGTH: return "list length not a multiple of six";
    case REPLAY_TOO_MANY: return "more than 16,384 instructions, in an old listing more than 1,024";
    case REPLAY_BAD_IMAGE: return "image not well formed";
    case REPLAY_UNKNOWN_OP: return "unknown op";
    case REPLAY_BAD_FIELD: return "a field outside its range, an unused field not 0, or mod not allowed";
    case REPLAY_BAD_LOAD_MOD: return "LOAD mod 3, 4, 10 or 12";
    case REPLAY_BAD_TEXT: return "listing text faulty";
    case REPLAY_TOO_LONG: return "listing over 1,048,576 bytes, in the program over 65,536, or room too short";
    case REPLAY_NO_STEP: return "step forward from the end or with fewer than 802 free words in the store, or back from the start";
    default: return "unknown";
    }
}

#endif
