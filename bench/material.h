/* A key, points, masks that pass and a message for a set, signatures of them under a rule, and session files made of them. */
#ifndef MATERIAL_H
#define MATERIAL_H
#include "harness.h"
#include "passign.h"
#include "plain.h"
#include "timing.h"
#include <stdio.h>
#include <string.h>

enum { FILE_ROOM = 65536, MASKS = 60, ROW_BUFFER = 16384 };

static uint8_t set, rule, secret_key[1154], public_key[3001], message[65535], signatures[MASKS][2379];
static uint16_t points[600];
static int16_t masks[MASKS][1153];
static uint8_t file[FILE_ROOM];
static size_t size, commands;
static int pairs;

static const struct plain_set *in_use(void) { return &plain_sets[set]; }
static size_t signature_size(void) { return 1 + 2 * in_use()->b + 2 * in_use()->n; }

static uint32_t sign_with(const int16_t *mask, uint8_t *signature)
{
    const struct plain_set *s = in_use();
    return passign_sign(secret_key, 1 + s->n, points, s->t, mask, s->n, message, 64, signature, signature_size(), rule);
}

/* coefficients within k - 2b pass whatever key and challenge are, but for a spent pool */
static void settle(uint8_t number, uint8_t rule_in_use)
{
    const struct plain_set *s = &plain_sets[number];
    int bound = (int)s->k - 2 * (int)s->b;
    set = secret_key[0] = number;
    rule = rule_in_use;
    for (size_t i = 0; i < s->n; i++)
        secret_key[1 + i] = (uint8_t)(next() % 3 - 1);
    for (size_t i = 0; i < s->t; i++)
        points[i] = 1 + i * (s->n - 1) / s->t;
    for (int j = 0; j < MASKS; j++) {
        for (size_t i = 0; i < s->n; i++)
            masks[j][i] = (int16_t)((int)(next() % (2 * bound + 1)) - bound);
        if (sign_with(masks[j], signatures[j]) != 256) {
            printf("a mask does not pass: choose another seed\n");
            exit(1);
        }
    }
    passign_public_key(secret_key, 1 + s->n, points, s->t, public_key, 1 + 5 * s->t);
}

static void byte(uint8_t x) { file[size++] = x; }

static void bytes(const uint8_t *from, size_t count)
{
    memcpy(file + size, from, count);
    size += count;
}

static void word(uint16_t x)
{
    byte(x >> 8);
    byte(x & 255);
}

static void command(uint8_t number, int mask)
{
    const struct plain_set *s = in_use();
    byte(number);
    commands++;
    switch (number) {
    case 1: byte(set); break;
    case 2: bytes(public_key + 1, 2 * s->t); break;
    case 3: bytes(secret_key + 1, s->n); break;
    case 4:
        for (size_t i = 0; i < s->n; i++)
            word((uint16_t)masks[mask][i]);
        break;
    case 5: bytes(message, 64); break;
    case 7: bytes(signatures[mask] + 1, signature_size() - 1); break;
    case 8: bytes(public_key + 1 + 2 * s->t, 3 * s->t); break;
    case 10: word(65535); break;
    case 11: byte(rule); break;
    }
}

/* tag, set and points; first the rule, where it is not the one that a session opens under */
static void begin_file(void)
{
    size = commands = 0;
    bytes((const uint8_t *)"PSG1", 4);
    if (rule != PASSIGN_RULE_LOW_BYTE)
        command(11, 0);
    command(1, 0);
    command(2, 0);
}

/* a file full of 04, 06, 07, each signature the one that its 06 makes */
static void fill_with_pairs(void)
{
    begin_file();
    command(3, 0);
    command(5, 0);
    for (pairs = 0; pairs < MASKS && size + 4 + 2 * in_use()->n + signature_size() < FILE_ROOM; pairs++) {
        command(4, pairs);
        command(6, pairs);
        command(7, pairs);
    }
    command(0, 0);
}

/* plays each command of the file; a play's four numbers, its file's and its row buffer's start and end, are cut to what is lent */
static void play_file(uint8_t *rows)
{
    static uint32_t plays[4 * FILE_ROOM], answers[FILE_ROOM];
    if (plays[1] == 0)
        for (size_t i = 1; i < 4 * FILE_ROOM; i += 2)
            plays[i] = UINT32_MAX;
    harness_plays(file, size, plays, 4 * commands, rows, ROW_BUFFER, answers, commands);
}

#endif
