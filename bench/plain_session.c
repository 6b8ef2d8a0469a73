/* A plain C player of session files that are well formed and have no 0A, to measure the kit's against: rows go to the front of a buffer, one after the
   other. */
#include "plain.h"
#include <string.h>

struct held {
    uint8_t rule;
    const struct plain_set *set;
    int points_held, key_held, evaluations_held, message_held, masks;
    uint32_t powers[1153];
    uint16_t points[600];
    uint8_t key[1154], public_key[3001], message[64];
    int16_t mask[8][1153];
};

static uint8_t *decimal(uint8_t *at, uint32_t n)
{
    uint8_t digits[10];
    int count = 0;
    do
        digits[count++] = '0' + n % 10;
    while ((n /= 10) != 0);
    while (count > 0)
        *at++ = digits[--count];
    return at;
}

static uint8_t *hex(uint8_t *at, const uint8_t *bytes, size_t count)
{
    for (size_t i = 0; i < count; i++) {
        *at++ = "0123456789ABCDEF"[bytes[i] >> 4];
        *at++ = "0123456789ABCDEF"[bytes[i] & 15];
    }
    return at;
}

static uint8_t *head(uint8_t *at, uint32_t ordinal, uint8_t command, uint32_t number)
{
    at = decimal(at, ordinal);
    *at++ = ' ';
    at = hex(at, &command, 1);
    *at++ = ' ';
    return decimal(at, number);
}

static size_t operand_size(const struct plain_set *s, uint8_t command)
{
    size_t sizes[12] = {0, 1, 2 * s->t, s->n, 2 * s->n, 64, 0, 2 * s->b + 2 * s->n, 3 * s->t, [11] = 1};
    return sizes[command];
}

static uint32_t load_points(struct held *h, const uint8_t *operand)
{
    uint16_t points[600], last = 0;
    for (size_t i = 0; i < h->set->t; i++) {
        points[i] = operand[2 * i] << 8 | operand[2 * i + 1];
        if (points[i] <= last || points[i] >= h->set->n)
            return 4;
        last = points[i];
    }
    memcpy(h->points, points, sizeof points);
    memcpy(h->public_key + 1, operand, 2 * h->set->t);
    h->points_held = 1, h->key_held = h->evaluations_held = 0;
    return 0;
}

static uint32_t load_key(struct held *h, const uint8_t *operand, uint8_t **at)
{
    int16_t f[1153];
    uint32_t values[600];
    uint8_t *out = h->public_key + 1 + 2 * h->set->t;
    for (size_t i = 0; i < h->set->n; i++) {
        if (operand[i] > 1 && operand[i] != 255)
            return 5;
        f[i] = (int8_t)operand[i];
    }
    memcpy(h->key + 1, operand, h->set->n);
    plain_evaluate(h->set, h->powers, f, h->points, h->set->t, values);
    for (size_t i = 0; i < h->set->t; i++) {
        *out++ = values[i] >> 16, *out++ = values[i] >> 8, *out++ = values[i];
        int32_t printed = plain_centred(h->set, values[i]);
        *(*at)++ = ' ';
        if (printed < 0)
            *(*at)++ = '-';
        *at = decimal(*at, printed < 0 ? (uint32_t)-printed : (uint32_t)printed);
    }
    h->key_held = h->evaluations_held = 1;
    return 0;
}

static uint32_t load_evaluations(struct held *h, const uint8_t *operand)
{
    for (size_t i = 0; i < h->set->t; i++)
        if ((uint32_t)(operand[3 * i] << 16 | operand[3 * i + 1] << 8 | operand[3 * i + 2]) >= h->set->q)
            return 7;
    memcpy(h->public_key + 1 + 2 * h->set->t, operand, 3 * h->set->t);
    h->evaluations_held = 1, h->key_held = 0;
    return 0;
}

static uint32_t load_mask(struct held *h, const uint8_t *operand)
{
    int16_t *mask = h->mask[h->masks];
    if (h->masks == 8)
        return 8;
    for (size_t i = 0; i < h->set->n; i++) {
        mask[i] = (int16_t)(operand[2 * i] << 8 | operand[2 * i + 1]);
        if (mask[i] > (int32_t)h->set->k || mask[i] < -(int32_t)h->set->k)
            return 6;
    }
    h->masks++;
    return 0;
}

static uint32_t sign(struct held *h, uint8_t **at)
{
    uint8_t signature[2379];
    for (int i = 0; i < h->masks; i++)
        if (plain_sign(h->set, h->powers, h->key, h->points, h->mask[i], h->message, 64, signature, h->rule)) {
            memmove(h->mask[0], h->mask[i + 1], (h->masks - i - 1) * sizeof h->mask[0]);
            h->masks -= i + 1;
            *(*at)++ = ' ';
            *at = decimal(*at, i);
            *(*at)++ = ' ';
            *at = hex(*at, signature, 1 + 2 * h->set->b + 2 * h->set->n);
            return 0;
        }
    h->masks = 0;
    return 9;
}

static void check(struct held *h, const uint8_t *operand, uint8_t **at)
{
    uint8_t signature[2379];
    signature[0] = h->key[0];
    memcpy(signature + 1, operand, 2 * h->set->b + 2 * h->set->n);
    *(*at)++ = ' ';
    *at = decimal(*at, plain_check(h->set, h->powers, h->public_key, h->message, 64, signature, h->rule));
}

/* forgets all but the rule */
static void choose(struct held *h, uint8_t set)
{
    uint8_t rule = h->rule;
    memset(h, 0, sizeof *h);
    h->rule = rule;
    h->set = &plain_sets[set];
    h->key[0] = h->public_key[0] = set;
    plain_powers(h->set, h->powers);
}

static uint32_t choose_rule(struct held *h, uint8_t rule)
{
    if (rule != 1 && rule != 2)
        return 18;
    h->rule = rule;
    return 0;
}

/* plays to the end; each row overwrites the one before it */
void plain_play(const uint8_t *file, size_t size, uint8_t *rows)
{
    static struct held h;
    uint32_t ordinal = 0;
    h.rule = 1, h.set = &plain_sets[0];
    for (size_t place = 4; place < size;) {
        uint8_t command = file[place++], added[16384], *at = added, *row;
        const uint8_t *operand = file + place;
        uint32_t number = 0;
        switch (command) {
        case 1: choose(&h, *operand); break;
        case 2: number = load_points(&h, operand); break;
        case 3: number = h.points_held ? load_key(&h, operand, &at) : 10; break;
        case 4: number = load_mask(&h, operand); break;
        case 5: memcpy(h.message, operand, 64), h.message_held = 1; break;
        case 6: number = h.key_held && h.message_held ? sign(&h, &at) : 10; break;
        case 8: number = h.points_held ? load_evaluations(&h, operand) : 10; break;
        case 7: h.evaluations_held && h.message_held ? check(&h, operand, &at) : (void)(number = 10); break;
        case 11: number = choose_rule(&h, *operand); break;
        }
        place += operand_size(h.set, command);
        row = head(rows, ++ordinal, command, number);
        memcpy(row, added, at - added);
        row[at - added] = '\n';
    }
}
