/* Measures the kit's functions beside plain C of the same method, on the same input, in one run: least and middle time of many rounds in
   microseconds, and the ratios. A difference in what the two compute ends the run. What signs or checks does it under rule 1, but for rows that say
   rule 2. Evaluation at all exponents, 1 to N-1, has its own method, and is measured beside N-1 plain evaluations: those of plain C, and in a table of
   its own those of the kit. Another table has points that are outside at one coefficient. With HAVE_FFTW another has the paper's method, Rader's
   reordering with FFTW, beside the kit. The last one shows how the kit's evaluation grows. */
#include "material.h"
#ifdef HAVE_FFTW
#include "fftw.h"
#endif

/* what each side writes */
static struct result {
    uint8_t digest[64], public_key[3001], signature[2379], rows[ROW_BUFFER];
    int8_t challenge[1153];
    int32_t values[1152];
    uint32_t answer;
    int32_t z[1153];
} plain, ours;

static uint32_t powers[1153];
static uint16_t exponents[1152]; /* 1 to N-1 */
static int16_t key[1153];
static int32_t tested[1153]; /* a point */
static uint8_t pool[512];

static void head(const char *first, const char *second)
{
    printf("%-28s %10s %10s %6s %10s %10s %6s\n", "least and middle, us", first, second, "ratio", first, second, "ratio");
}

static void compare(const char *name, void (*first)(void), void (*second)(void))
{
    struct times a, b;
    char line[40];
    memset(&plain, 0, sizeof plain);
    memset(&ours, 0, sizeof ours);
    first(), second();
    if (memcmp(&plain, &ours, sizeof plain) != 0) {
        printf("%s: the two sides differ\n", name);
        exit(1);
    }
    measure(first, second, &a, &b);
    snprintf(line, sizeof line, set ? "%s, set %d" : "%s", name, set);
    printf("%-28s %10.2f %10.2f %6.2f %10.2f %10.2f %6.2f\n", line, a.least, b.least, b.least / a.least, a.middle, b.middle, b.middle / a.middle);
}

static void plain_long(void) { plain_sha512(message, 65535, plain.digest); }
static void ours_long(void) { harness_sha512(message, 65535, ours.digest); }
static void plain_short(void) { plain_sha512(message, 664, plain.digest); }
static void ours_short(void) { harness_sha512_of_two(message, 600, message + 600, 64, ours.digest); }
static void plain_evaluates_at(const uint16_t *at, size_t count)
{
    uint32_t residues[1152];
    plain_evaluate(in_use(), powers, masks[0], at, count, residues);
    for (size_t i = 0; i < count; i++)
        plain.values[i] = plain_centred(in_use(), residues[i]);
}
static void plain_evaluates(void) { plain_evaluates_at(points, in_use()->t); }
static void ours_evaluates(void) { passign_evaluate(set, masks[0], in_use()->n, points, in_use()->t, ours.values, in_use()->t); }
static void plain_evaluates_each(void) { plain_evaluates_at(exponents, in_use()->n - 1); }
static void ours_evaluates_each(void) { harness_evaluate(set, masks[0], in_use()->n, exponents, in_use()->n - 1, plain.values, in_use()->n - 1); }
static void ours_evaluates_all(void) { passign_evaluate_all(set, masks[0], in_use()->n, ours.values, in_use()->n - 1); }
static void plain_publishes(void)
{
    const struct plain_set *s = in_use();
    int16_t f[1153];
    uint32_t values[600];
    uint8_t *to = plain.public_key;
    for (size_t i = 0; i < s->n; i++)
        f[i] = (int8_t)secret_key[1 + i];
    plain_evaluate(s, powers, f, points, s->t, values);
    *to++ = set;
    for (size_t i = 0; i < s->t; i++)
        *to++ = points[i] >> 8, *to++ = points[i];
    for (size_t i = 0; i < s->t; i++)
        *to++ = values[i] >> 16, *to++ = values[i] >> 8, *to++ = values[i];
}
static void ours_publishes(void) { passign_public_key(secret_key, 1 + in_use()->n, points, in_use()->t, ours.public_key, 1 + 5 * in_use()->t); }
static void plain_draws(void) { plain_draw(in_use(), pool, plain.challenge); }
static void ours_draws(void) { passign_draw(set, pool, sizeof pool, ours.challenge, in_use()->n); }
static void plain_points(void) { plain_point(in_use(), key, plain.challenge, masks[0], plain.z); }
static void ours_points(void) { harness_point(key, in_use()->n, ours.challenge, in_use()->n, masks[0], in_use()->n, ours.z, in_use()->n); }
static void plain_signs(void) { plain.answer = 256 * plain_sign(in_use(), powers, secret_key, points, masks[0], message, 64, plain.signature, rule); }
static void ours_signs(void) { ours.answer = sign_with(masks[0], ours.signature); }
static void plain_checks(void) { plain.answer = 256 * plain_check(in_use(), powers, public_key, message, 64, signatures[0], rule); }
static void ours_checks(void) { ours.answer = passign_check(public_key, 1 + 5 * in_use()->t, message, 64, signatures[0], signature_size(), rule); }
static void plain_plays(void) { plain_play(file, size, plain.rows); }
static void ours_plays(void) { play_file(ours.rows); }

static void plain_tests(void)
{
    for (int i = 0; i < 100; i++)
        plain.answer += plain_first_outside(in_use(), tested);
}
static void ours_tests(void)
{
    for (int i = 0; i < 100; i++)
        ours.answer += harness_first_outside(tested, in_use()->n, in_use()->k - in_use()->b);
}
static void plain_products(void) { plain_draws(), plain_points(); }
static void ours_products(void) { ours_draws(), ours_points(); }

static void prepare_under(uint8_t number, uint8_t rule_in_use)
{
    settle(number, rule_in_use);
    plain_powers(in_use(), powers);
    for (size_t i = 0; i < in_use()->n; i++)
        key[i] = (int8_t)secret_key[1 + i];
    for (size_t i = 0; i + 1 < in_use()->n; i++)
        exponents[i] = i + 1;
}

static void prepare(uint8_t number) { prepare_under(number, PASSIGN_RULE_LOW_BYTE); }

/* 04 of a mask with k at a place: its point is outside there, unless that key's product with that challenge is -b at this place */
static void failing_mask(int mask, size_t at)
{
    uint8_t signature[2379];
    int16_t passing = masks[mask][at];
    masks[mask][at] = (int16_t)in_use()->k;
    if (sign_with(masks[mask], signature) != PASSIGN_NONE_PASSES) {
        printf("a mask passes: choose another seed\n");
        exit(1);
    }
    command(4, mask);
    masks[mask][at] = passing;
}

/* a file full of signings, each of which passes over seven masks that are outside at one place */
static void fill_with_failing(size_t at)
{
    size_t signing = 8 * (1 + 2 * in_use()->n) + 1;
    begin_file();
    command(3, 0);
    command(5, 0);
    for (int mask = 0; mask + 8 <= MASKS && size + signing < FILE_ROOM; mask += 8) {
        for (int i = 0; i < 7; i++)
            failing_mask(mask + i, at);
        command(4, mask + 7);
        command(6, 0);
    }
    command(0, 0);
}

/* the test of a point, and sessions in which seven masks of eight fail, by where the first coefficient is outside */
static void compare_failing(void)
{
    static const char *const points_of[3] = {"100 points, first", "100 points, middle", "100 points, last"};
    static const char *const sessions_of[3] = {"session, first", "session, middle", "session, last"};
    size_t places[3] = {0, in_use()->n / 2, in_use()->n - 1};
    for (size_t i = 0; i < in_use()->n; i++)
        tested[i] = masks[0][i];
    compare("100 points, none", plain_tests, ours_tests);
    for (int i = 0; i < 3; i++) {
        tested[places[i]] = in_use()->k;
        compare(points_of[i], plain_tests, ours_tests);
        tested[places[i]] = masks[0][places[i]];
    }
    for (int i = 0; i < 3; i++) {
        fill_with_failing(places[i]);
        compare(sessions_of[i], plain_plays, ours_plays);
    }
}

static void compare_under_rule_2(int number)
{
    prepare_under(number, PASSIGN_RULE_THREE_BYTES);
    fill_with_pairs();
    compare("sign, rule 2", plain_signs, ours_signs);
    compare("check, rule 2", plain_checks, ours_checks);
    compare("session, rule 2", plain_plays, ours_plays);
}

#ifdef HAVE_FFTW
static struct rader rader;

static void rader_evaluates(void)
{
    uint32_t residues[600];
    rader_evaluate(in_use(), &rader, masks[0], points, in_use()->t, residues);
    for (size_t i = 0; i < in_use()->t; i++)
        plain.values[i] = plain_centred(in_use(), residues[i]);
}
static void rader_signs(void) { plain.answer = 256 * rader_sign(in_use(), &rader, secret_key, points, masks[0], message, 64, plain.signature, rule); }
static void rader_checks(void) { plain.answer = 256 * rader_check(in_use(), &rader, public_key, message, 64, signatures[0], rule); }

static void must(int right)
{
    if (right)
        return;
    printf("Rader with FFTW is wrong in set %d: install another build of FFTW, or none to measure without it\n", set);
    exit(1);
}

/* the coefficients of 16 bits with the largest sum at an exponent */
static void fill_along(size_t exponent, int16_t *list)
{
    for (size_t i = 0; i < in_use()->n; i++)
        list[i] = plain_centred(in_use(), powers[i * exponent % in_use()->n]) < 0 ? -32768 : 32767;
}

static void fill_with_any(int16_t *list)
{
    for (size_t i = 0; i < in_use()->n; i++)
        list[i] = next();
}

/* any coefficients, and those with the largest sums, which leave the fewest bits behind the point */
static void verify_evaluations(void)
{
    static uint32_t of_rader[1152], of_plain[1152];
    size_t count = in_use()->n - 1;
    int16_t list[1153];
    for (size_t e = 1; e <= count; e++) {
        e % 2 == 0 ? fill_with_any(list) : fill_along(e, list);
        rader_evaluate(in_use(), &rader, list, exponents, count, of_rader);
        plain_evaluate(in_use(), powers, list, exponents, count, of_plain);
        must(memcmp(of_rader, of_plain, count * sizeof *of_rader) == 0);
    }
}

/* the kit's signatures, a yes for each, and a no for another message */
static void verify_signatures(void)
{
    uint8_t signature[2379];
    for (int j = 0; j < MASKS; j++) {
        must(rader_sign(in_use(), &rader, secret_key, points, masks[j], message, 64, signature, rule));
        must(memcmp(signature, signatures[j], signature_size()) == 0);
        must(rader_check(in_use(), &rader, public_key, message, 64, signature, rule));
        must(!rader_check(in_use(), &rader, public_key, message + 1, 64, signature, rule));
    }
}

static void compare_with_paper(void)
{
    printf("the paper's method: Rader's reordering with FFTW, in doubles, planned beforehand; its sign and check have the SHA-512 of plain C\n");
    head("Rader/FFTW", "ours");
    for (int number = 1; number < 5; number++) {
        prepare(number);
        rader_prepare(&rader, in_use(), powers);
        verify_evaluations();
        verify_signatures();
        compare("evaluate", rader_evaluates, ours_evaluates);
        compare("sign with one mask", rader_signs, ours_signs);
        compare("check", rader_checks, ours_checks);
        rader_end(&rader);
    }
}
#else
static void compare_with_paper(void) {}
#endif

/* The kit's evaluation is made of (N-1)(K+L) products, where N-1 is K times L: its time is to grow as their number. */
static void print_growth(void)
{
    static const int k_and_l[5][2] = {{0, 0}, {16, 27}, {8, 72}, {6, 128}, {24, 48}};
    printf("%-28s %10s %10s %10s\n", "growth", "least, us", "(N-1)(K+L)", "ns of each");
    for (int number = 1; number < 5; number++) {
        prepare(number);
        double least = least_of(ours_evaluates), products = (in_use()->n - 1) * (k_and_l[number][0] + k_and_l[number][1]);
        printf("evaluate, set %d              %10.2f %10.0f %10.3f\n", number, least, products, 1000 * least / products);
    }
}

int main(void)
{
    for (size_t i = 0; i < sizeof message; i++)
        message[i] = next();
    memcpy(pool, message, sizeof pool);
    head("plain C", "ours");
    compare("SHA-512 of 65,535 bytes", plain_long, ours_long);
    compare("SHA-512 of 600 + 64 bytes", plain_short, ours_short);
    for (int number = 1; number < 5; number++) {
        prepare(number);
        fill_with_pairs();
        compare("evaluate", plain_evaluates, ours_evaluates);
        compare("evaluate all", plain_evaluates_each, ours_evaluates_all);
        compare("public key", plain_publishes, ours_publishes);
        compare("draw", plain_draws, ours_draws);
        compare("draw and point", plain_products, ours_products);
        compare("sign with one mask", plain_signs, ours_signs);
        compare("check", plain_checks, ours_checks);
        compare("session of 64 KiB", plain_plays, ours_plays);
        compare_under_rule_2(number);
    }
    head("ours, each", "ours, all");
    for (int number = 1; number < 5; number++) {
        prepare(number);
        compare("evaluate all, our own", ours_evaluates_each, ours_evaluates_all);
    }
    printf("where the first coefficient is outside: of a point, tested 100 times, and of seven masks of eight in a session of 64 KiB\n");
    head("plain C", "ours");
    for (int number = 1; number < 5; number++) {
        prepare(number);
        compare_failing();
    }
    compare_with_paper();
    print_growth();
    return 0;
}
