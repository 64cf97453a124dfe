/* What a program needs to run on a Cortex-M under qemu's board mps2-an386: a start, and the few calls below newlib. What it prints
 * and how it ends goes to the host by semihosting. BOARD_TRAPS_UNALIGNED: an access that isn't aligned stops it, as a Cortex-M0 does.
 * BOARD_SAYS_STACK: its last line says how much of the memory between its variables and the end the stack took; where that was all of
 * it, it ends with 98. */
#include <stddef.h>
#include <stdint.h>

extern uint32_t board_bss, board_bss_end, board_data, board_data_end, board_data_load, board_stack_top;
extern char board_heap;
int main(int argc, char **argv);

enum { SAYS = 0x04, ENDS = 0x20, APPLICATION_EXIT = 0x20026, FULL_STATUS = 98, FAULT_STATUS = 99 };

static int host(int operation, const void *argument) {
    register int r0 __asm("r0") = operation;
    register const void *r1 __asm("r1") = argument;
    __asm volatile("bkpt 0xab" : "+r"(r0) : "r"(r1) : "memory");
    return r0;
}

#ifdef BOARD_SAYS_STACK
enum { PAINT = 0x5AC3A53C };

/* Below the caller's frame, which is the first one. */
static void paint_stack(void) {
    uint32_t *at = &board_bss_end, *here = (uint32_t *)__builtin_frame_address(0) - 16;
    while (at < here) *at++ = PAINT;
}

static void say_number(uint32_t number) {
    char digits[11];
    int at = 10;
    digits[10] = 0;
    do digits[--at] = (char)('0' + number % 10);
    while ((number /= 10) != 0);
    host(SAYS, digits + at);
}

/* Whether some of it was left. */
static int say_stack(void) {
    const uint32_t *at = &board_bss_end;
    while (at < &board_stack_top && *at == PAINT) at++;
    host(SAYS, "stack: ");
    say_number(4 * (uint32_t)(&board_stack_top - at));
    host(SAYS, " bytes of ");
    say_number(4 * (uint32_t)(&board_stack_top - &board_bss_end));
    host(SAYS, "\n");
    return at != &board_bss_end;
}
#else
static void paint_stack(void) {}
static int say_stack(void) { return 1; }
#endif

__attribute__((noreturn)) void _exit(int status) {
    uint32_t block[2] = {APPLICATION_EXIT, (uint32_t)status};
    if (!say_stack()) block[1] = FULL_STATUS;
    for (;;) host(ENDS, block);
}

static void reset(void) {
    static char name[] = "test", count[] = BOARD_COUNT, seed[] = "2";
    static char *words[] = {name, count, seed, NULL};
    uint32_t *to = &board_data, *from = &board_data_load;
    while (to < &board_data_end) *to++ = *from++;
    for (to = &board_bss; to < &board_bss_end; to++) *to = 0;
#ifdef BOARD_TRAPS_UNALIGNED
    *(volatile uint32_t *)0xE000ED14 |= 8; /* UNALIGN_TRP of the control register */
#endif
    paint_stack();
    _exit(main(3, words));
}

static void fault(void) {
    host(SAYS, "a fault of the processor\n");
    _exit(FAULT_STATUS);
}

__attribute__((section(".vectors"), used)) static void (*const vectors[16])(void) = {
    (void (*)(void))(uintptr_t)&board_stack_top, reset, fault, fault, fault, fault, fault};

int _write(int file, const char *from, int count) {
    char line[129];
    int done = 0;
    (void)file;
    while (done < count) {
        int n = 0;
        while (n < 128 && done < count) line[n++] = from[done++];
        line[n] = 0;
        host(SAYS, line);
    }
    return count;
}

/* The heap is memory of the board's own: the test's part is there. */
void *_sbrk(int count) {
    static char *end = &board_heap;
    char *start = end;
    end += count;
    return start;
}

int _close(int file) { (void)file; return -1; }
int _fstat(int file, void *about) { (void)file; (void)about; return -1; }
int _isatty(int file) { (void)file; return 1; }
int _lseek(int file, int offset, int from) { (void)file; (void)offset; (void)from; return 0; }
int _read(int file, char *into, int count) { (void)file; (void)into; (void)count; return 0; }
int _kill(int process, int signal) { (void)process; (void)signal; return -1; }
int _getpid(void) { return 1; }
