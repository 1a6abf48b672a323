/* A service that runs a program which it doesn't trust: as an inner machine, which has its own memory and may spend only
   so much gas. It returns how the program ended. */

typedef unsigned char u8;
typedef unsigned long u64;

struct output {
    const void *bytes;
    u64 len;
};

#define MOST_MACHINES 1024
#define HALT 0xffff0000
#define GAS 10000

/* What an inner machine is given, and what it leaves: gas and registers. */
struct state {
    u64 gas;
    u64 registers[13];
};

/* How an inner machine stopped: 0 it halted, 1 panicked, 2 a page fault at `value`, 3 a host call with the number `value`,
   4 out of gas. */
struct stop {
    u64 reason;
    u64 value;
};

/* The host calls 8, 12 and 13. */
extern u64 machine(const u8 *program, u64 len, u64 counter);
extern struct stop invoke(u64 number, struct state *state);
extern u64 expunge(u64 number);

/* The program: how often the number in register 7 has to be halved, or tripled with one more, until it is 1. From 0 that
   never comes, so the program doesn't end. */
static const u8 program[] = {
    0x00, 0x01, 0x22,       /* no jump table; 34 bytes of code */
    0x33, 0x08,             /*  0 load_imm r8 0 */
    0x01,                   /*  2 fallthrough */
    0x51, 0x17, 0x01, 0x1b, /*  3 branch_eq_imm r7 1 @30 */
    0x84, 0x79, 0x01,       /*  7 and_imm r9 r7 1 */
    0x51, 0x09, 0x0b,       /* 10 branch_eq_imm r9 0 @21 */
    0x96, 0x77, 0x03,       /* 13 mul_imm_64 r7 r7 3 */
    0x95, 0x77, 0x01,       /* 16 add_imm_64 r7 r7 1 */
    0x28, 0x06,             /* 19 jump @25 */
    0x98, 0x77, 0x01,       /* 21 shlo_r_imm_64 r7 r7 1 */
    0x01,                   /* 24 fallthrough */
    0x95, 0x88, 0x01,       /* 25 add_imm_64 r8 r8 1 */
    0x28, 0xe7,             /* 28 jump @3 */
    0x64, 0x87,             /* 30 move_reg r7 r8 */
    0x32, 0x00,             /* 32 jump_ind r0 0 */
    0x8d, 0x24, 0x29, 0x53, 0x01, /* where instructions start */
};

static struct report {
    u64 reason;
    u64 result;
    u64 gas_spent;
} report;

static struct state state;

struct output main(const u8 *argument, u64 len) {
    u64 number = 0;
    for (u64 at = 0; at < len; at++)
        number |= (u64)argument[at] << (8 * at);
    u64 inner = machine(program, sizeof program, 0);
    if (inner >= MOST_MACHINES)
        __builtin_trap();
    state.gas = GAS;
    state.registers[0] = HALT;
    state.registers[7] = number;
    struct stop stop = invoke(inner, &state);
    expunge(inner);
    report = (struct report){stop.reason, state.registers[7], GAS - state.gas};
    return (struct output){&report, sizeof report};
}
