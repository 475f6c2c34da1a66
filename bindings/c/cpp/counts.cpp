// One of two files of a C++17 program that both include codeplug.h.
#include "counts.hpp"

#include "codeplug.h"

std::string counts(const std::uint8_t *file, std::size_t length)
{
    codeplug_validate_answer a = codeplug_validate(file, length, CODEPLUG_EDITION_OLDER);
    if (a.number != CODEPLUG_OK)
        return codeplug_refusal_text(a.number);
    return std::to_string(a.contacts) + " contacts, " + std::to_string(a.channels) + " channels, " + std::to_string(a.banks) + " banks";
}
