// The second unit of header.cpp's program: what the header defines may stand in both.
#include "passign.h"
#include <string>

std::string text_elsewhere(uint32_t refusal) { return passign_refusal_text(refusal); }
int signature_size_elsewhere(uint8_t set) { return PASSIGN_SIGNATURE_SIZE(set); }
