// A C++11 program over include/passign.h: signs the example of set 1 as examples/sign.c does, checks the signature, and checks it with the marker's public key.
// Its arguments are the folders examples/sign and examples/marker. Exit status 0 when all is as it should be, else 1, and it prints what is not.
#include "passign.h"
#include "passign.h"
#include <array>
#include <cstdint>
#include <cstdio>
#include <cstdlib>
#include <fstream>
#include <iterator>
#include <string>
#include <vector>

// header_again.cpp includes the header too
std::string text_elsewhere(uint32_t refusal);
int signature_size_elsewhere(uint8_t set);

static const uint8_t set = 1;
static std::array<uint8_t, PASSIGN_PUBLIC_KEY_SIZE(set)> public_key;
static uint8_t signature[PASSIGN_SIGNATURE_MAX];

static_assert(PASSIGN_SIGNATURE_SIZE(5) == 0 && PASSIGN_SIGNATURE_SIZE(PASSIGN_SETS - 1) == PASSIGN_SIGNATURE_MAX, "sizes go by the set");
enum : uint32_t { yes = PASSIGN_YES, no = PASSIGN_NO, done = PASSIGN_DONE };

#define EXPECT(holds) do { if (!(holds)) { std::fprintf(stderr, "line %d: not so: %s\n", __LINE__, #holds); std::exit(1); } } while (0)

static std::vector<uint8_t> bytes_of(const std::string &name)
{
    std::ifstream file(name, std::ios::binary);
    return std::vector<uint8_t>(std::istreambuf_iterator<char>(file), std::istreambuf_iterator<char>());
}

template <typename Number> static std::vector<Number> numbers_of(const std::string &name)
{
    std::ifstream file(name);
    return std::vector<Number>(std::istream_iterator<Number>(file), std::istream_iterator<Number>());
}

static uint32_t check(const std::vector<uint8_t> &message, uint8_t rule)
{
    return passign_check(public_key.data(), public_key.size(), message.data(), message.size(), signature, PASSIGN_SIGNATURE_SIZE(set), rule);
}

static void sign_and_check(const std::string &folder, const std::vector<uint8_t> &message, uint8_t rule)
{
    std::vector<uint8_t> key = bytes_of(folder + "/secret_key");
    std::vector<uint16_t> points = numbers_of<uint16_t>(folder + "/points.txt");
    std::vector<int16_t> masks = numbers_of<int16_t>(folder + "/masks.txt");
    EXPECT(key.size() == PASSIGN_SECRET_KEY_SIZE(set) && points.size() == PASSIGN_T(set) && masks.size() == 3 * PASSIGN_N(set));
    EXPECT(passign_public_key(key.data(), key.size(), points.data(), points.size(), public_key.data(), public_key.size()) == done);
    EXPECT(passign_sign(key.data(), key.size(), points.data(), points.size(), masks.data(), masks.size(), message.data(), message.size(),
                        signature, PASSIGN_SIGNATURE_SIZE(set), rule) >= PASSIGN_SIGNED);
    EXPECT(check(message, rule) == yes);
}

int main(int count, char **arguments)
{
    EXPECT(count == 3);
    const std::string folder = arguments[1], marker = arguments[2];
    const std::vector<uint8_t> message = bytes_of(folder + "/message"), nothing, key = bytes_of(marker + "/public_key");
    for (uint8_t rule : {PASSIGN_RULE_LOW_BYTE, PASSIGN_RULE_THREE_BYTES}) {
        sign_and_check(folder, nothing, rule); // its data() may be null
        EXPECT(check(message, rule) == no);
        sign_and_check(folder, message, rule);
        EXPECT(std::vector<uint8_t>(public_key.begin(), public_key.end()) == key);
    }
    EXPECT(check(message, 3) == PASSIGN_WRONG_RULE);
    EXPECT(text_elsewhere(PASSIGN_WRONG_RULE) == passign_refusal_text(18) && text_elsewhere(1) != text_elsewhere(2));
    EXPECT(signature_size_elsewhere(set) == PASSIGN_SIGNATURE_SIZE(set) && signature_size_elsewhere(255) == 0);
    return 0;
}
