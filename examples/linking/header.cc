// slatewhim.h from C++11: the header as it is, a book as a value, and the proved answers of document 01's reference sheet.
//
//     c++ -std=c++11 -I../../target/library/include header.cc ../../target/library/lib/libslatewhim.a -o header && ./header
//
// What it prints is in header.out.
#include <slatewhim.h>

#include <array>
#include <initializer_list>
#include <iostream>

namespace {

using Sheet = std::array<std::uint32_t, SLATEWHIM_FIELDS>;
using Tariff = std::array<std::uint32_t, SLATEWHIM_RECORD>;

// A book that is copied and compared as a value; the words are its own.
class Book {
public:
    Book() { slatewhim_fresh(words.data(), words.size()); }

    std::uint32_t set(const Sheet &sheet, std::uint32_t year, std::uint32_t month, std::uint32_t months) {
        return slatewhim_set(words.data(), words.size(), SLATEWHIM_ALL_REGIONS, sheet.data(), sheet.size(), year, month, months);
    }
    std::uint32_t put(std::uint32_t code, const Tariff &tariff) {
        return slatewhim_put(words.data(), words.size(), SLATEWHIM_ALL_REGIONS, code, tariff.data(), tariff.size());
    }
    slatewhim_opened open(std::uint32_t code) { return slatewhim_open(words.data(), words.size(), SLATEWHIM_ALL_REGIONS, code); }
    std::uint32_t undo() { return slatewhim_undo(words.data(), words.size(), SLATEWHIM_ALL_REGIONS); }
    slatewhim_fraction maximum(std::uint32_t region, std::uint32_t arrangement, std::uint32_t method, std::uint32_t total) const {
        return slatewhim_maximum(words.data(), words.size(), SLATEWHIM_ALL_REGIONS, region, arrangement, method, total);
    }
    bool operator==(const Book &other) const { return words == other.words; }

private:
    std::array<std::uint32_t, SLATEWHIM_WORDS> words;
};

Sheet reference_sheet() {
    Sheet sheet{};
    std::size_t k = 0;
    for (std::uint32_t field : {0u, 30000000u, 0u, 36000000u, 0u, 1000000u, 0u, 1000000u, 1000000u, 8000000u, 1000000u, 8000000u, 5000000u,
                                9000000u, 5000000u, 9000000u, 10000u, 10000u, 20000u, 0u, 400000u, 0u, 1000u, 100u, 100u, 100u, 100u, 100u,
                                100u, 1100u, 100u, 105u, 100u, 100u, 100u, 100u, 500000u})
        sheet[k++] = field;
    for (; k < 93; k++) sheet[k] = k % 2 ? 2000000 : 12000000;
    sheet[93] = 3000;
    sheet[94] = 4000;
    sheet[95] = 580;
    return sheet;
}

// One rate, all regions, both methods.
Tariff one_rate(std::uint32_t standing, std::uint32_t rate) {
    Tariff tariff{};
    tariff[0] = 1;
    tariff[1] = 1;
    tariff[2] = standing;
    tariff[3] = SLATEWHIM_ALL_REGIONS;
    tariff[4] = 3;
    tariff[5] = rate;
    return tariff;
}

} // namespace

int main() {
    Book book;
    std::cout << "put: " << book.put(1, one_rate(23960, 18000)) << ", " << book.put(2, one_rate(23961, 18000)) << "\n";
    std::cout << "open without a sheet: " << book.open(1).refusal << "\n";
    std::cout << "set: " << book.set(reference_sheet(), 2023, 10, 3) << "\n";
    std::cout << "open 1: " << book.open(1).refusal << "\n";

    const Book before = book;
    const slatewhim_opened over = book.open(2);
    std::cout << "open 2: " << over.refusal << ", region " << over.region << ", method " << over.method << ", excess " << over.excess
              << "\n";
    std::cout << "a refused call changed nothing: " << (book == before ? "yes" : "no") << "\n";
    std::cout << "undo after an open: " << book.undo() << "\n";

    const slatewhim_fraction maximum = book.maximum(0, 0, 1, 300);
    std::cout << "maximum for 300 kWh: " << maximum.number << " / " << maximum.denominator << " = "
              << maximum.number / maximum.denominator << " mills\n";
}
