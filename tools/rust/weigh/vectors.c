/* Where a Cortex-M0 starts: the top of its stack, and the first instruction. */
extern void _start(void);
__attribute__((section(".vectors"), used)) static void (*const vectors[])(void) = {(void (*)(void))0x20004000, _start};
