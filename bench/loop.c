/* A program whose count is known, to try plugin.c with: from one call of counted() to the next it executes a return, a
 * move, 1000 times two instructions, and a call, which makes 2003.
 *
 * SPDX-License-Identifier: Apache-2.0
 */
#if defined __aarch64__
#define RETURN "ret"
#define LINK "str x30, [sp, #-16]!"
#define UNLINK "ldr x30, [sp], #16"
#define NUMBER "w0"
#define MODE ""
#elif defined __thumb__
#define RETURN "bx lr"
#define LINK "push {r4, lr}"
#define UNLINK "pop {r4, lr}"
#define NUMBER "r0"
#define MODE ".syntax unified\n.thumb\n"
#else
#error "no such processor"
#endif

__asm__(".text\n" MODE
        ".global counted, loop\n"
        ".type counted, %function\n"
        ".type loop, %function\n"
        "counted: " RETURN "\n"
        "loop: " LINK "\n"
        "bl counted\n"
        "mov " NUMBER ", #1000\n"
        "1: subs " NUMBER ", " NUMBER ", #1\n"
        "bne 1b\n"
        "bl counted\n"
        UNLINK "\n"
        RETURN "\n");

void loop(void);

int main(void)
{
    loop();
}
