// Starts a register, announces a strike and prints the ladder of December 2026.
// usage: ladder [file of a calendar; else every weekday has a session]
#include <sindhopul.h>

#include <array>
#include <cstdint>
#include <exception>
#include <fstream>
#include <iomanip>
#include <iostream>
#include <iterator>
#include <stdexcept>
#include <string>
#include <vector>

namespace {

const std::uint32_t monday = 9816, tuesday = 9817; // 16 and 17 November 2026
const std::uint32_t december = 323;

// Day 0 is a Saturday.
std::vector<std::uint8_t> weekdays()
{
    std::vector<std::uint8_t> calendar(SINDHOPUL_CALENDAR_BYTES);
    for (unsigned day = 0; day <= 36524; day++) {
        if (day % 7 >= 2) {
            calendar[day / 8] |= static_cast<std::uint8_t>(1u << (day % 8));
        }
    }
    return calendar;
}

std::vector<std::uint8_t> load(const char *path)
{
    std::ifstream file(path, std::ios::binary);
    return {std::istreambuf_iterator<char>(file), std::istreambuf_iterator<char>()};
}

void expect_accepted(const std::string &call, unsigned cause)
{
    if (cause != SINDHOPUL_ACCEPTED) {
        throw std::runtime_error(call + " refused, cause " + std::to_string(cause));
    }
}

unsigned number_at(const std::uint8_t *bytes)
{
    return bytes[0] + 256u * bytes[1];
}

std::string name(std::uint32_t month, std::uint32_t type, std::uint32_t price)
{
    std::array<std::uint8_t, SINDHOPUL_NAME_BYTES> name;
    expect_accepted("name", sindhopul_name_write(name.data(), name.size(), month, type, price));
    return {name.begin(), name.end()};
}

void print_row(const std::uint8_t *row)
{
    const unsigned month = number_at(row), price = number_at(row + 2);
    std::cout << std::setw(4) << price << ' ' << name(month, 0, price) << ' '
              << name(month, 1, price) << " since day " << number_at(row + 4) << ", origin "
              << unsigned{row[6]} << '\n';
}

void run(const std::vector<std::uint8_t> &calendar)
{
    std::array<std::uint8_t, SINDHOPUL_REGISTER_BYTES> listed{};

    auto listing = sindhopul_start(calendar.data(), calendar.size(), listed.data(), listed.size(),
                                   monday, 241337);
    expect_accepted("start", listing.number);
    std::cout << "day " << monday << ": " << listing.rows << " rows\n";

    const auto announced = sindhopul_announce(calendar.data(), calendar.size(), listed.data(),
                                              listed.size(), december, 3100);
    expect_accepted("announce", announced.number);
    listing = sindhopul_session(calendar.data(), calendar.size(), listed.data(), listed.size(),
                                tuesday, 241502);
    expect_accepted("session", listing.number);
    std::cout << "day " << tuesday << ": " << listing.rows << " rows, " << listing.added
              << " of them new\n";

    const auto rows = sindhopul_rows(calendar.data(), calendar.size(), listed.data(),
                                     listed.size(), december);
    expect_accepted("rows", rows.number);
    for (unsigned at = 0; at < rows.size; at += SINDHOPUL_ROW_BYTES) {
        print_row(listed.data() + rows.at + at);
    }
}

} // namespace

int main(int argument_count, char **arguments)
{
    try {
        run(argument_count > 1 ? load(arguments[1]) : weekdays());
    } catch (const std::exception &refusal) {
        std::cerr << refusal.what() << '\n';
        return 1;
    }
    return 0;
}
