/* Compiled once at -O2 and once at -O3, with PLAIN_RUN as the name of the one function that others see. */
#include "plain.h"

enum { FLAG_Z = 1, FLAG_C = 2, FLAG_N = 4 };
enum { STACK_MIN = 0xEA, STACK_MAX = 0xFF };

enum op {
    HLT, NOP, LDI, LDA, LDR, MOV, STORE, PUSH,
    POP, ADD, ADDI, SUB, SUBI, INC, DEC, AND,
    OR, XOR, NOT, CMP, SHL, SHR, JMP, JZ,
    JNZ, PRINT, MUL, MULI, DIV, DIVI, MOD, MODI,
    CALL, RET, ROL, ROR, IN, JMPR, CALLR, STR
};

static void update_zn(struct plain_machine *m, uint8_t value)
{
    m->flags &= (uint8_t)~(FLAG_Z | FLAG_N);
    if (value == 0)
        m->flags |= FLAG_Z;
    if (value & 0x80)
        m->flags |= FLAG_N;
}

static void update_znc(struct plain_machine *m, uint8_t value, bool carry)
{
    update_zn(m, value);
    m->flags &= (uint8_t)~FLAG_C;
    if (carry)
        m->flags |= FLAG_C;
}

static void load(struct plain_machine *m, unsigned r, uint8_t value)
{
    m->registers[r] = value;
    update_zn(m, value);
}

static void result(struct plain_machine *m, unsigned r, uint8_t value, bool carry)
{
    m->registers[r] = value;
    update_znc(m, value, carry);
}

/* One instruction of a machine that is not halted. Document 01's number: 0 done, 1 halted, 3 to 8 refused, and
   then nothing has changed. The count is the caller's. */
static int turn(struct plain_machine *m, struct plain_ports *p)
{
    uint8_t pc = m->pc;
    uint8_t opcode = m->memory[pc];
    uint8_t second = m->memory[(uint8_t)(pc + 1)];
    uint8_t third = m->memory[(uint8_t)(pc + 2)];
    unsigned d = second >> 4, s = second & 15;
    uint8_t at_d = m->registers[d], at_s = m->registers[s];

    switch (opcode) {
    case HLT: m->halted = true; return 1;
    case NOP: m->pc += 1; return 0;
    case LDI: load(m, s, third); m->pc += 3; return 0;
    case LDA: load(m, s, m->memory[third]); m->pc += 3; return 0;
    case LDR: load(m, d, m->memory[at_s]); m->pc += 2; return 0;
    case MOV: load(m, d, at_s); m->pc += 2; return 0;
    case STORE: m->memory[third] = at_s; m->pc += 3; return 0;
    case PUSH:
        if (m->sp == STACK_MIN)
            return 4;
        m->memory[m->sp--] = at_s;
        m->pc += 2;
        return 0;
    case POP:
        if (m->sp == STACK_MAX)
            return 5;
        load(m, s, m->memory[++m->sp]);
        m->pc += 2;
        return 0;
    case ADD: result(m, d, at_d + at_s, at_d + at_s > 255); m->pc += 2; return 0;
    case ADDI: result(m, s, at_s + third, at_s + third > 255); m->pc += 3; return 0;
    case SUB: result(m, d, at_d - at_s, at_d < at_s); m->pc += 2; return 0;
    case SUBI: result(m, s, at_s - third, at_s < third); m->pc += 3; return 0;
    case INC: load(m, s, at_s + 1); m->pc += 2; return 0;
    case DEC: load(m, s, at_s - 1); m->pc += 2; return 0;
    case AND: load(m, d, at_d & at_s); m->pc += 2; return 0;
    case OR: load(m, d, at_d | at_s); m->pc += 2; return 0;
    case XOR: load(m, d, at_d ^ at_s); m->pc += 2; return 0;
    case NOT: load(m, s, (uint8_t)~at_s); m->pc += 2; return 0;
    case CMP: update_znc(m, at_d - at_s, at_d < at_s); m->pc += 2; return 0;
    case SHL: result(m, s, (uint8_t)(at_s << 1), at_s >> 7); m->pc += 2; return 0;
    case SHR: result(m, s, at_s >> 1, at_s & 1); m->pc += 2; return 0;
    case JMP: m->pc = second; return 0;
    case JZ: m->pc = m->flags & FLAG_Z ? second : pc + 2; return 0;
    case JNZ: m->pc = m->flags & FLAG_Z ? pc + 2 : second; return 0;
    case PRINT:
        if (p->written >= p->room)
            return 8;
        p->output[p->written++] = at_s;
        m->pc += 2;
        return 0;
    case MUL: result(m, d, at_d * at_s, at_d * at_s > 255); m->pc += 2; return 0;
    case MULI: result(m, s, at_s * third, at_s * third > 255); m->pc += 3; return 0;
    case DIV:
        if (at_s == 0)
            return 6;
        result(m, d, at_d / at_s, false);
        m->pc += 2;
        return 0;
    case DIVI:
        if (third == 0)
            return 6;
        result(m, s, at_s / third, false);
        m->pc += 3;
        return 0;
    case MOD:
        if (at_s == 0)
            return 6;
        result(m, d, at_d % at_s, false);
        m->pc += 2;
        return 0;
    case MODI:
        if (third == 0)
            return 6;
        result(m, s, at_s % third, false);
        m->pc += 3;
        return 0;
    case CALL:
        if (m->sp == STACK_MIN)
            return 4;
        m->memory[m->sp--] = pc + 2;
        m->pc = second;
        return 0;
    case RET:
        if (m->sp == STACK_MAX)
            return 5;
        m->pc = m->memory[++m->sp];
        return 0;
    case ROL: result(m, s, (uint8_t)(at_s << 1 | at_s >> 7), at_s >> 7); m->pc += 2; return 0;
    case ROR: result(m, s, (uint8_t)(at_s >> 1 | at_s << 7), at_s & 1); m->pc += 2; return 0;
    case IN:
        if (p->place >= p->length)
            return 7;
        load(m, s, p->input[p->place++]);
        m->pc += 2;
        return 0;
    case JMPR: m->pc = at_s; return 0;
    case CALLR:
        if (m->sp == STACK_MIN)
            return 4;
        m->memory[m->sp--] = pc + 2;
        m->pc = at_s;
        return 0;
    case STR: m->memory[at_s] = at_d; m->pc += 2; return 0;
    default: return 3;
    }
}

int PLAIN_RUN(struct plain_machine *m, struct plain_ports *p)
{
    if (m->halted)
        return 1;
    while (m->count < m->limit) {
        int answer = turn(m, p);
        if (answer != 0)
            return answer;
        m->count++;
    }
    return 10;
}
