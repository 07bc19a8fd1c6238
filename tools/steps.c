// A plain interpreter of RV64I's commonest rows, to compare the machine with: decode, switch, one access of a vector.
// It names what it needs of the C library itself, since the kit's clang has no headers.
typedef unsigned long uint64_t;
typedef long int64_t;
typedef unsigned int uint32_t;
typedef int int32_t;
int printf(const char *, ...);
long atol(const char *);

struct core { uint64_t pc, x[32]; };
static uint64_t words[64];

// 0 where the step went, and else why not
static int step(struct core *c, const uint32_t *code, uint64_t count) {
    uint64_t pc = c->pc;
    if (pc < 65536 || pc % 4 != 0 || (pc - 65536) / 4 >= count) return 1;
    uint32_t w = code[(pc - 65536) / 4];
    uint32_t rd = w >> 7 & 31, f3 = w >> 12 & 7, f7 = w >> 25;
    uint64_t a = c->x[w >> 15 & 31], b = c->x[w >> 20 & 31], next = pc + 4, r;
    int64_t imm = (int32_t)w >> 20;
    switch (w & 127) {
    case 0x13:
        switch (f3) {
        case 0: r = a + imm; break;
        case 2: r = (int64_t)a < imm; break;
        case 3: r = a < (uint64_t)imm; break;
        case 4: r = a ^ imm; break;
        case 6: r = a | imm; break;
        case 7: r = a & imm; break;
        case 1: if (w >> 26) return 2; r = a << (imm & 63); break;
        default: if (w >> 26 == 0) r = a >> (imm & 63); else if (w >> 26 == 16) r = (int64_t)a >> (imm & 63); else return 2;
        }
        break;
    case 0x33:
        if (f7 == 0x20) { if (f3 == 0) r = a - b; else if (f3 == 5) r = (int64_t)a >> (b & 63); else return 2; break; }
        if (f7 != 0) return 2;
        switch (f3) {
        case 0: r = a + b; break;
        case 1: r = a << (b & 63); break;
        case 2: r = (int64_t)a < (int64_t)b; break;
        case 3: r = a < b; break;
        case 4: r = a ^ b; break;
        case 5: r = a >> (b & 63); break;
        case 6: r = a | b; break;
        default: r = a & b;
        }
        break;
    case 0x03: {
        uint64_t at = a + imm;
        if (f3 != 3) return 2;
        if (at % 8 != 0) return 3;
        if (at / 8 >= 64) return 4;
        r = words[at / 8];
        break;
    }
    case 0x23: {
        uint64_t at = a + (((int32_t)w >> 25 << 5) | (int32_t)rd);
        if (f3 != 3) return 2;
        if (at % 8 != 0) return 3;
        if (at / 8 >= 64) return 4;
        words[at / 8] = b;
        c->pc = next;
        return 0;
    }
    case 0x6f:
        r = next;
        next = pc + (((int64_t)((int32_t)w >> 31) << 20) | (w & 0xff000) | (w >> 9 & 0x800) | (w >> 20 & 0x7fe));
        break;
    case 0x37: r = (int64_t)(int32_t)(w & 0xfffff000); break;
    default: return 2;
    }
    if (rd) c->x[rd] = r;
    c->pc = next;
    return 0;
}

int main(int argc, char **argv) {
    static const uint32_t loop[6] = {0x00128293, 0x00530333, 0x0062C3B3, 0x00643023, 0x00043483, 0xFEDFF06F};
    uint32_t code[6];
    for (int i = 0; i < 6; i++) code[i] = ((volatile const uint32_t *)loop)[i];
    struct core c = {.pc = 65536};
    c.x[8] = 64;
    long refused = 0, count = argc > 1 ? atol(argv[1]) : 0;
    for (long i = 0; i < count; i++) refused += step(&c, code, 6) != 0;
    printf("x5 %lu, %ld refused\n", (unsigned long)c.x[5], refused);
    return 0;
}
