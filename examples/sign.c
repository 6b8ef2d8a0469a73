/* A signer: reads a secret key, points, masks and a message, signs, writes the signature, checks it, and prints what happened. Points and masks are
   texts of numbers apart by white space or commas; the masks stand one after the other, 0 to 8 of them. A mask is for one signature: two that were
   made with the same mask can give the key away.
   Exit status: 0 signed and checked with yes, 1 refused, 2 not readable or not written, with the reason on standard error. */
#include "passign.h"
#include <ctype.h>
#include <stdio.h>
#include <stdlib.h>
#include <string.h>
#include <sys/stat.h>

/* One byte more than the longest message, so that a longer one is seen and refused. */
enum { ROOM = PASSIGN_MESSAGE_MAX + 1, MASKS_ROOM = PASSIGN_MASKS_MAX * PASSIGN_N_MAX };
struct input { uint8_t bytes[ROOM]; size_t length; };
static struct input secret_key, message;
static uint16_t points[PASSIGN_T_MAX];
static int16_t masks[MASKS_ROOM];
static size_t points_length, masks_length;
static uint8_t public_key[PASSIGN_PUBLIC_KEY_MAX], signature[PASSIGN_SIGNATURE_MAX];

/* The file that was opened to read, or read to its end. */
static FILE *readable(FILE *file, const char *name)
{
    if (file == NULL || ferror(file)) {
        fprintf(stderr, "sign: cannot read %s: give the names of a secret key, points, masks and a message file\n", name);
        exit(2);
    }
    return file;
}

static void read_file(struct input *in, const char *name)
{
    FILE *file = readable(fopen(name, "rb"), name);
    in->length = fread(in->bytes, 1, ROOM, file);
    fclose(readable(file, name));
}

static int is_between(int c) { return c == ',' || isspace(c); }

/* The next word of a text, as much of it as there is room for, and 0 at the end. What cannot be printed is a question mark. */
static int next_word(FILE *file, char *word, size_t room)
{
    size_t length = 0;
    int c = getc(file);
    while (is_between(c))
        c = getc(file);
    for (; c != EOF && !is_between(c); c = getc(file))
        if (length + 1 < room)
            word[length++] = (char)(isprint(c) ? c : '?');
    word[length] = '\0';
    return length > 0;
}

/* Up to 19 digits, with a sign or without. */
static int is_number(const char *word)
{
    const char *digits = word + (*word == '-' || *word == '+');
    size_t count = strspn(digits, "0123456789");
    return count >= 1 && count <= 19 && digits[count] == '\0';
}

/* The numbers of a text, and how many there are. Whether they are points or masks is for the library to say, but they must fit their type. */
static size_t read_numbers(const char *name, long low, long high, long *numbers, size_t most)
{
    char word[32];
    size_t count = 0;
    FILE *file = readable(fopen(name, "rb"), name);
    for (; next_word(file, word, sizeof word); count++) {
        long number = strtol(word, NULL, 10);
        if (count == most || !is_number(word) || number < low || number > high) {
            fprintf(stderr, "sign: %s: found '%s' as number %zu: expected at most %zu whole numbers from %ld to %ld, apart by white space or commas\n",
                    name, word, count + 1, most, low, high);
            exit(2);
        }
        numbers[count] = number;
    }
    fclose(readable(file, name));
    return count;
}

static void read_points_and_masks(const char *points_name, const char *masks_name)
{
    static long numbers[MASKS_ROOM];
    points_length = read_numbers(points_name, 0, UINT16_MAX, numbers, PASSIGN_T_MAX);
    for (size_t i = 0; i < points_length; i++)
        points[i] = (uint16_t)numbers[i];
    masks_length = read_numbers(masks_name, INT16_MIN, INT16_MAX, numbers, MASKS_ROOM);
    for (size_t i = 0; i < masks_length; i++)
        masks[i] = (int16_t)numbers[i];
}

/* A number of one byte, in decimal digits alone; whether it is a rule is for passign_sign to say. */
static uint8_t read_rule(const char *text)
{
    size_t digits = strspn(text, "0123456789");
    if (digits < 1 || digits > 3 || text[digits] != '\0' || atoi(text) > UINT8_MAX) {
        fprintf(stderr, "sign: '%s' is no rule: give 1 for the low byte of each evaluation in the hash, or 2 for all three bytes\n", text);
        exit(2);
    }
    return (uint8_t)atoi(text);
}

static void end_if_refused(uint32_t answer)
{
    if (answer != PASSIGN_DONE && answer < PASSIGN_SIGNED) {
        fprintf(stderr, "sign: refused with %u: %s\n", (unsigned)answer, passign_refusal_text(answer));
        exit(1);
    }
}

/* Writes the signature whole, or leaves none: a file of which a part was written goes, but not a device. */
static void write_signature(const char *name, size_t size)
{
    struct stat kind;
    FILE *file = fopen(name, "wb");
    if (file != NULL) {
        int whole = fwrite(signature, 1, size, file) == size;
        if (fclose(file) == 0 && whole)
            return;
        if (stat(name, &kind) == 0 && S_ISREG(kind.st_mode))
            remove(name);
    }
    fprintf(stderr, "sign: cannot write %s: see to its folder and the room on the disk, and sign again\n", name);
    exit(2);
}

/* Sizes go by the set, the key's first byte; for what is no set they are 0, and the library refuses the key. */
static int sign_and_check(uint8_t set, const char *name, uint8_t rule)
{
    size_t key_size = PASSIGN_PUBLIC_KEY_SIZE(set), size = PASSIGN_SIGNATURE_SIZE(set);
    end_if_refused(passign_public_key(secret_key.bytes, secret_key.length, points, points_length, public_key, key_size));
    uint32_t answer = passign_sign(secret_key.bytes, secret_key.length, points, points_length, masks, masks_length, message.bytes, message.length,
                                   signature, size, rule);
    end_if_refused(answer);
    write_signature(name, size);
    unsigned passed_over = answer - PASSIGN_SIGNED;
    size_t given = masks_length / PASSIGN_N(set);
    printf("signed under rule %d in set %d with mask %u of %zu: %u passed over\nwrote %zu bytes to %s\n", rule, set, passed_over + 1, given, passed_over, size, name);
    answer = passign_check(public_key, key_size, message.bytes, message.length, signature, size, rule);
    end_if_refused(answer);
    puts(answer == PASSIGN_YES ? "check: yes" : "check: no");
    return answer == PASSIGN_YES;
}

int main(int argc, char **argv)
{
    if (argc != 7) {
        fprintf(stderr, "usage: sign SECRET_KEY POINTS MASKS MESSAGE SIGNATURE RULE\n");
        return 2;
    }
    uint8_t rule = read_rule(argv[6]);
    read_file(&secret_key, argv[1]);
    read_points_and_masks(argv[2], argv[3]);
    read_file(&message, argv[4]);
    int yes = sign_and_check(secret_key.bytes[0], argv[5], rule);
    if (fflush(stdout) != 0 || ferror(stdout)) {
        fprintf(stderr, "sign: cannot write what happened: see to standard output; the signature is written\n");
        return 2;
    }
    return yes ? 0 : 1;
}
