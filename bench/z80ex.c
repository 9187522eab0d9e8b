/* Runs a COM file on the Z80 core of libz80ex, as a peer of the speed comparison.

       z80ex FILE [MOST]

   FILE is loaded at 0100h of 64K of flat memory, SP is EBFEh as for `cpmhost com`, and instructions run until HALT or
   until MOST of them are done. HALT counts as one instruction. The one line on standard output is

       WHY count N pc HHHH de HHHH seconds S by z80ex VERSION

   with WHY `halted` or `steps`, and S the processor's time in user mode. Nothing of CP/M is there: a program that
   calls it runs into zeros. */

#include <stdio.h>
#include <stdlib.h>
#include <sys/resource.h>
#include <z80ex/z80ex.h>

enum { START = 0x0100, STACK = 0xEBFE, SIZE = 0x10000 };

static Z80EX_BYTE memory[SIZE];

static Z80EX_BYTE get(Z80EX_CONTEXT *cpu, Z80EX_WORD at, int m1, void *data) {
    (void)cpu, (void)m1, (void)data;
    return memory[at];
}

static void set(Z80EX_CONTEXT *cpu, Z80EX_WORD at, Z80EX_BYTE value, void *data) {
    (void)cpu, (void)data;
    memory[at] = value;
}

static Z80EX_BYTE port_in(Z80EX_CONTEXT *cpu, Z80EX_WORD port, void *data) {
    (void)cpu, (void)port, (void)data;
    return 0xFF;
}

static void port_out(Z80EX_CONTEXT *cpu, Z80EX_WORD port, Z80EX_BYTE value, void *data) {
    (void)cpu, (void)port, (void)value, (void)data;
}

static Z80EX_BYTE vector(Z80EX_CONTEXT *cpu, void *data) {
    (void)cpu, (void)data;
    return 0xFF;
}

static double user_seconds(void) {
    struct rusage used;
    getrusage(RUSAGE_SELF, &used);
    return used.ru_utime.tv_sec + used.ru_utime.tv_usec / 1e6;
}

int main(int argc, char **argv) {
    if (argc < 2 || argc > 3) {
        fprintf(stderr, "usage: z80ex FILE [MOST]\n");
        return 1;
    }
    unsigned long long most = argc == 3 ? strtoull(argv[2], NULL, 10) : ~0ULL;
    FILE *file = fopen(argv[1], "rb");
    if (!file) {
        perror(argv[1]);
        return 4;
    }
    size_t read = fread(memory + START, 1, SIZE - START, file);
    int fits = read > 0 && fgetc(file) == EOF && !ferror(file);
    fclose(file);
    if (!fits) {
        fprintf(stderr, "%s: it cannot be read, is empty, or is too long\n", argv[1]);
        return 4;
    }

    Z80EX_CONTEXT *cpu = z80ex_create(get, NULL, set, NULL, port_in, NULL, port_out, NULL, vector, NULL);
    if (!cpu)
        return 8;
    z80ex_set_reg(cpu, regPC, START);
    z80ex_set_reg(cpu, regSP, STACK);

    unsigned long long count = 0;
    double start = user_seconds();
    while (count < most && !z80ex_doing_halt(cpu)) {
        /* a call does one opcode, and a prefix is one too: it is no instruction of its own */
        do
            z80ex_step(cpu);
        while (z80ex_last_op_type(cpu));
        count++;
    }
    double seconds = user_seconds() - start;
    printf("%s count %llu pc %04X de %04X seconds %.3f by z80ex %s\n", z80ex_doing_halt(cpu) ? "halted" : "steps", count,
           z80ex_get_reg(cpu, regPC), z80ex_get_reg(cpu, regDE), seconds, z80ex_get_version()->as_string);
    z80ex_destroy(cpu);
    return 0;
}
