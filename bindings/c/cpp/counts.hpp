// What cpp/counts.cpp offers to cpp/main.cpp.
#include <cstddef>
#include <cstdint>
#include <string>

// A file's counts, or why it is refused.
std::string counts(const std::uint8_t *file, std::size_t length);
