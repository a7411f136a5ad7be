// A plain hand-written lister of books: the baseline of the benchmark, in C++17.
//
// Reads one book on standard input and prints its list, or its fault with status 2, as docs/FORMATS.md says. It is what one would
// write for speed without proofs: one pass, no allocation for a line or a word, the list in one growing text.

#include <unistd.h>

#include <array>
#include <cstddef>
#include <cstdint>
#include <memory>
#include <optional>
#include <string>
#include <string_view>

namespace {

constexpr std::size_t largest_book = 67'108'864;
constexpr std::size_t longest_line = 1'600;
constexpr std::size_t most_words = 64;
constexpr std::size_t gsi_8_width = 15;
constexpr std::size_t gsi_16_width = 23;

// Lengths are in units of 10 nm.
constexpr std::int64_t metre = 100'000'000;
constexpr std::int64_t largest_length = 1'000'000'000'000;

// A fault of a line: its kind and words as they are printed. It is empty where there is none.
using Fault = std::string;

struct Length {
    enum class State { right, bad_number, bad_unit, too_large };
    State state;
    std::int64_t size;
};

// What a line says. The counting words 33 and 84 to 88 stand at the places that `slot` gives.
struct Block {
    std::string_view first_word;
    std::array<std::string_view, 6> counting;
    bool repeated = false;
};

enum Slot { height_difference, easting, northing, station_height, reflector_height, instrument_height, no_slot };

struct Setup {
    std::string_view station;
    std::optional<std::int64_t> instrument_height;
    std::optional<std::int64_t> reflector_height;
};

bool is_digit(char byte) { return byte >= '0' && byte <= '9'; }

bool is_printable(char byte) { return byte >= 0x20 && byte <= 0x7E; }

bool only_spaces(std::string_view text) { return text.find_first_not_of(' ') == std::string_view::npos; }

// The first thing wrong with the bytes at a word's place, or null where they begin with a word.
const char* wrong_with_spelling(std::string_view text, std::size_t width) {
    if (text.size() < width) return "short";
    if (!is_digit(text[0]) || !is_digit(text[1])) return "bad index";
    for (std::size_t place = 2; place < 6; ++place)
        if (!is_digit(text[place]) && text[place] != '.') return "bad information";
    if (text[6] != '+' && text[6] != '-') return "bad sign";
    bool printable = true;
    for (std::size_t place = 7; place < width; ++place) printable &= is_printable(text[place]);
    return printable ? nullptr : "bad data";
}

Slot slot(std::string_view word) {
    if (word[2] != '.') return no_slot;
    if (word[0] == '3') return word[1] == '3' ? height_difference : no_slot;
    if (word[0] != '8' || word[1] < '4' || word[1] > '8') return no_slot;
    return static_cast<Slot>(easting + (word[1] - '4'));
}

void take_word(Block& block, std::string_view word) {
    const Slot place = slot(word);
    if (place == no_slot) return;
    if (!block.counting[place].empty()) block.repeated = true;
    block.counting[place] = word;
}

Fault fault_of_word(std::size_t number, const char* wrong) { return "B1 word " + std::to_string(number) + ": " + wrong; }

// Reads the words of a line that is not blank.
Fault read_block(std::string_view line, Block& block) {
    if (line.size() > longest_line) return "B1 line too long";
    const bool wide = line[0] == '*';
    const std::size_t width = wide ? gsi_16_width : gsi_8_width;
    std::string_view rest = line.substr(wide ? 1 : 0);
    if (wide && only_spaces(rest)) return fault_of_word(1, "short");
    for (std::size_t number = 1;; ++number) {
        if (const char* wrong = wrong_with_spelling(rest, width)) return fault_of_word(number, wrong);
        const std::string_view word = rest.substr(0, width);
        if (number == 1) block.first_word = word;
        take_word(block, word);
        rest.remove_prefix(width);
        if (rest.empty()) return {};
        if (rest[0] != ' ') return "B1 no space after word " + std::to_string(number);
        rest.remove_prefix(1);
        // The next word's first byte tells mostly at once that there is one.
        if (rest.empty() || (rest[0] == ' ' && only_spaces(rest))) return {};
        if (number == most_words) return "B1 too many words";
    }
}

std::int64_t unit_of(char code) {
    switch (code) {
        case '0': return 100'000;
        case '1': return 30'480;
        case '6': return 10'000;
        case '7': return 3'048;
        case '8': return 1'000;
        default: return 0;
    }
}

Length read_length(std::string_view word) {
    std::int64_t number = 0;
    for (const char byte : word.substr(7)) {
        if (!is_digit(byte)) return {Length::State::bad_number, 0};
        number = number * 10 + (byte - '0');
    }
    const std::int64_t unit = unit_of(word[5]);
    if (unit == 0) return {Length::State::bad_unit, 0};
    if (number > largest_length / unit) return {Length::State::too_large, 0};
    return {Length::State::right, word[6] == '-' ? -number * unit : number * unit};
}

// The name of some printable data; empty where they give none.
std::string_view name_of(std::string_view data) {
    const std::size_t start = data.find_first_not_of("0 ");
    if (start != std::string_view::npos) return data.substr(start, data.find_last_not_of(' ') + 1 - start);
    const std::size_t zero = data.find('0');
    return zero == std::string_view::npos ? std::string_view() : data.substr(zero, 1);
}

void append_number(std::string& text, std::uint64_t number) {
    char digits[20];
    std::size_t start = sizeof digits;
    do {
        digits[--start] = static_cast<char>('0' + number % 10);
        number /= 10;
    } while (number != 0);
    text.append(digits + start, sizeof digits - start);
}

void append_metres(std::string& text, std::int64_t length) {
    if (length < 0) text += '-';
    const std::uint64_t size = static_cast<std::uint64_t>(length < 0 ? -length : length);
    append_number(text, size / metre);
    char digits[9] = {'.'};
    std::uint64_t rest = size % metre;
    for (std::size_t place = 8; place > 0; --place, rest /= 10) digits[place] = static_cast<char>('0' + rest % 10);
    text.append(digits, sizeof digits);
}

void append_field(std::string& text, std::string_view name) {
    if (name.find_first_of(",\"") == std::string_view::npos) {
        text += name;
        return;
    }
    text += '"';
    for (const char byte : name) text.append(byte == '"' ? 2 : 1, byte);
    text += '"';
}

// Reads a book line by line, and writes the list as it goes.
class Lister {
public:
    Lister() : list("number,from,to,difference\n") {}

    Fault take_line(std::string_view line) {
        if (line.empty() || (line[0] == ' ' && line.size() <= longest_line && only_spaces(line))) return {};
        Block block;
        if (Fault fault = read_block(line, block); !fault.empty()) return fault;
        return take_block(block);
    }

    std::string list;

private:
    Fault take_block(const Block& block) {
        const auto& words = block.counting;
        const bool sight = !words[height_difference].empty();
        const bool marked = !words[easting].empty() || !words[northing].empty() || !words[station_height].empty();
        if (block.repeated) return "B2 repeated word";
        std::string_view name;
        if (sight || marked) {
            if (block.first_word.substr(0, 2) != "11") return "B3 no point number";
            name = name_of(block.first_word.substr(7));
            if (name.empty()) return "B4 bad name";
        }
        if (Fault fault = read_lengths(words); !fault.empty()) return fault;
        if (marked && !sight) setup = Setup{name, {}, {}};
        if (setup && !words[instrument_height].empty()) setup->instrument_height = lengths[instrument_height];
        if (setup && !words[reflector_height].empty()) setup->reflector_height = lengths[reflector_height];
        return sight ? take_sight(name) : Fault();
    }

    Fault read_lengths(const std::array<std::string_view, 6>& words) {
        bool bad_number = false, bad_unit = false, too_large = false;
        for (const Slot place : {height_difference, reflector_height, instrument_height}) {
            if (words[place].empty()) continue;
            const Length length = read_length(words[place]);
            lengths[place] = length.size;
            bad_number |= length.state == Length::State::bad_number;
            bad_unit |= length.state == Length::State::bad_unit;
            too_large |= length.state == Length::State::too_large;
        }
        if (bad_number) return "B5 bad number";
        if (bad_unit) return "B6 bad unit";
        if (too_large) return "B7 too large";
        return {};
    }

    Fault take_sight(std::string_view target) {
        if (!setup) return "B8 sight before setup";
        if (!setup->instrument_height) return "B9 no instrument height";
        if (!setup->reflector_height) return "B10 no reflector height";
        if (target == setup->station) return "B11 sight to itself";
        append_number(list, ++observations);
        list += ',';
        append_field(list, setup->station);
        list += ',';
        append_field(list, target);
        list += ',';
        append_metres(list, lengths[height_difference] + *setup->instrument_height - *setup->reflector_height);
        list += '\n';
        return {};
    }

    std::optional<Setup> setup;
    std::array<std::int64_t, 6> lengths{};
    std::uint64_t observations = 0;
};

// The place behind the line's end that stands at `end`.
std::size_t behind_end(std::string_view book, std::size_t end) {
    const bool two_bytes = book[end] == '\r' && end + 1 < book.size() && book[end + 1] == '\n';
    return end + (two_bytes ? 2 : 1);
}

std::size_t find_end(std::string_view book, std::size_t start) {
    while (start < book.size() && book[start] != '\n' && book[start] != '\r') ++start;
    return start;
}

// Standard input as a whole, or one byte more than a book may have. There is no size where it cannot be read.
std::optional<std::size_t> read_book(char* book) {
    std::size_t size = 0;
    while (size <= largest_book) {
        const ssize_t count = read(STDIN_FILENO, book + size, largest_book + 1 - size);
        if (count < 0) return {};
        if (count == 0) break;
        size += static_cast<std::size_t>(count);
    }
    return size;
}

bool write_all(int file, std::string_view text) {
    while (!text.empty()) {
        const ssize_t count = write(file, text.data(), text.size());
        if (count <= 0) return false;
        text.remove_prefix(static_cast<std::size_t>(count));
    }
    return true;
}

int refuse(std::size_t line, const Fault& fault) {
    write_all(STDERR_FILENO, "book 1 line " + std::to_string(line) + ": " + fault + "\n");
    return 2;
}

int list_book(std::string_view book) {
    if (book.size() > largest_book) return refuse(0, "B12 book too long");
    Lister lister;
    std::size_t number = 0;
    for (std::size_t start = 0; start < book.size();) {
        const std::size_t end = find_end(book, start);
        ++number;
        if (Fault fault = lister.take_line(book.substr(start, end - start)); !fault.empty()) return refuse(number, fault);
        start = end < book.size() ? behind_end(book, end) : end;
    }
    if (write_all(STDOUT_FILENO, lister.list)) return 0;
    write_all(STDERR_FILENO, "write failed: list\n");
    return 5;
}

}  // namespace

int main() {
    // Room for the largest book, of which the system gives only what is written to.
    const std::unique_ptr<char[]> book(new char[largest_book + 1]);
    const std::optional<std::size_t> size = read_book(book.get());
    if (!size) {
        write_all(STDERR_FILENO, "read failed: book 1\n");
        return 5;
    }
    return list_book({book.get(), *size});
}
