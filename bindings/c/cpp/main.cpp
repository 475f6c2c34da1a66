// A C++17 program of two files that both include codeplug.h: makes a codeplug of one bank, reads the bank's name, and
// migrates it: both readings accept it, so it stays as it is.
#include <array>
#include <iostream>
#include <string_view>

#include "codeplug.h"
#include "counts.hpp"

using Room = std::array<std::uint8_t, 200>;

static bool same_when_migrated(Room room, std::size_t length)
{
    const Room before = room;
    codeplug_validate_answer legacy = codeplug_validate_legacy(room.data(), length, CODEPLUG_EDITION_OLDER);
    codeplug_validate_answer migrated = codeplug_migrate(room.data(), length, CODEPLUG_EDITION_OLDER);
    return legacy.number == CODEPLUG_OK && migrated.number == CODEPLUG_OK && migrated.banks == legacy.banks && room == before;
}

int main()
{
    constexpr std::string_view text = "Field day";
    Room room{}, history{};
    std::array<std::uint8_t, CODEPLUG_TEXT_SIZE> name{}, again{};
    codeplug_write_empty(room.data(), room.size());
    codeplug_write_text(name.data(), name.size(), reinterpret_cast<const std::uint8_t *>(text.data()), text.size());
    codeplug_edit_answer made = codeplug_edit(room.data(), room.size(), CODEPLUG_HEADER_SIZE, history.data(), history.size(), 0,
        CODEPLUG_INSERT_BANK, 0, 0, name.data(), name.size(), CODEPLUG_EDITION_OLDER);
    codeplug_bank_answer bank = codeplug_bank(room.data(), made.length, 0, again.data(), again.size(), CODEPLUG_EDITION_OLDER);
    if (made.number != CODEPLUG_OK || bank.number != CODEPLUG_OK || codeplug_text_length(again.data()) != text.size() || again != name) {
        std::cerr << "C++: " << codeplug_refusal_text(made.number) << ", " << codeplug_refusal_text(bank.number) << "\n";
        return 1;
    }
    if (!same_when_migrated(room, made.length)) {
        std::cerr << "C++: a codeplug that both readings accept was refused or changed\n";
        return 1;
    }
    std::cout << "C++: " << counts(room.data(), made.length) << "; cut: " << counts(room.data(), made.length - 1) << "\n";
    return 0;
}
