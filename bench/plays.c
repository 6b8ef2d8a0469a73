/* Measures plays of a session: one play of each command but 03, 06 and 07, beside a memcpy of as many bytes as the state has; and files full of
   signings and checks beside the same calls of the library. Least times, in microseconds. */
#include "material.h"

enum { STATE = 26610 }; /* a Session, as the compiler copies it */

static uint8_t rows[ROW_BUFFER], copies[2][STATE];

static void plays(void) { play_file(rows); }

static void copy(void)
{
    memcpy(copies[0], copies[1], STATE);
    __asm__ volatile("" : : "r"(copies[0]) : "memory");
}

static void library_calls(void)
{
    uint8_t signature[2379];
    passign_public_key(secret_key, 1 + in_use()->n, points, in_use()->t, public_key, 1 + 5 * in_use()->t);
    for (int i = 0; i < pairs; i++) {
        sign_with(masks[i], signature);
        passign_check(public_key, 1 + 5 * in_use()->t, message, 64, signature, signature_size(), rule);
    }
}

/* a file with many of the command, less one with none; 0A needs a key */
static void measure_command(uint8_t number, int count)
{
    begin_file();
    if (number == 10)
        command(3, 0);
    double none = least_of(plays);
    for (int i = 0; i < count; i++)
        command(number, 0);
    printf("play of %02X, set %d             %10.2f\n", number, set, (least_of(plays) - none) / count);
}

int main(void)
{
    struct times calls, session;
    printf("memcpy of %d bytes         %10.2f\n", STATE, least_of(copy));
    settle(4, PASSIGN_RULE_LOW_BYTE);
    measure_command(1, 20000);
    measure_command(2, 50);
    measure_command(4, 8);
    measure_command(5, 900);
    measure_command(8, 30);
    measure_command(10, 20000);
    measure_command(11, 20000);
    printf("%-28s %10s %10s %6s\n", "signings and checks", "calls", "session", "ratio");
    for (int number = 1; number < 5; number++) {
        settle(number, PASSIGN_RULE_LOW_BYTE);
        fill_with_pairs();
        measure(library_calls, plays, &calls, &session);
        printf("%2d of each, set %d            %10.2f %10.2f %6.2f\n", pairs, set, calls.least, session.least, session.least / calls.least);
    }
    return 0;
}
