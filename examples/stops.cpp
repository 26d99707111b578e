// Lists the picture stops of a TBC stream on standard input, field by field, as a player would meet them. Only lines 16
// to 18 of a file are read. Status 2: the stream can't be read, and standard error says why. If the stream ends inside
// a field, standard error says where.
//
// The library recovers the words of worn lines. A stop is one that it believes by the lines of its field. A picture's
// number is one that it believes by the fields around it, or that is due between such fields. So the list is printed
// when the stream has ended, and 52 bytes of each field are kept until then. If you need no numbers, see stops.c.
//
//     c++ -std=c++17 -o stops stops.cpp -lldvbi && ./stops NTSC 16384 51200 < side.tbc
#include <algorithm>
#include <cerrno>
#include <cstdint>
#include <cstdio>
#include <cstdlib>
#include <cstring>
#include <iostream>
#include <ldvbi.h>
#include <optional>
#include <stdexcept>
#include <string>
#include <sys/stat.h>
#include <unistd.h>
#include <vector>

namespace {

std::uint32_t parse_system(const std::string &text) {
    if (text == "NTSC") return LDVBI_NTSC;
    if (text == "PAL") return LDVBI_PAL;
    throw std::invalid_argument(ldvbi_status_text(LDVBI_BAD_SYSTEM));
}

// A whole number, in at most nine decimal digits alone.
std::uint32_t parse_number(const std::string &name, const std::string &text) {
    if (text.empty() || text.size() > 9 || text.find_first_not_of("0123456789") != std::string::npos)
        throw std::invalid_argument(name + " is not a whole number");
    return static_cast<std::uint32_t>(std::strtoul(text.c_str(), nullptr, 10));
}

void check(std::uint32_t status) {
    if (status != LDVBI_DONE) throw std::invalid_argument(ldvbi_status_text(status));
}

class Reader {
public:
    Reader(std::uint32_t system, std::uint32_t black, std::uint32_t white)
        : system_(system), black_(black), white_(white) {
        if (ldvbi_abi() != LDVBI_ABI) throw std::runtime_error("the library has another interface");
        // of no fields it tests the numbers
        check(ldvbi_recover_fields(system, black, white, nullptr, 0, nullptr, 0, nullptr, 0));
    }

    std::size_t field_bytes() const { return ldvbi_field_bytes(system_); }

    // Fetches a field of standard input. If that is a file, the field begins at its byte `at`, and only lines 16 to 18
    // are read; a pipe can only be read whole. Returns how many bytes of the field there are.
    std::size_t fetch(off_t at, std::vector<std::uint8_t> &field) const {
        struct stat about;
        if (fstat(STDIN_FILENO, &about) != 0) fail(errno);
        if (!S_ISREG(about.st_mode)) {
            const std::size_t length = std::fread(field.data(), 1, field.size(), stdin);
            if (std::ferror(stdin)) fail(errno);
            return length;
        }
        const off_t left = std::max<off_t>(about.st_size - at, 0);
        if (left < static_cast<off_t>(field.size())) return static_cast<std::size_t>(left);
        const std::size_t line = ldvbi_line_bytes(system_), begin = 15 * line;
        const ssize_t length = pread(STDIN_FILENO, &field[begin], 3 * line, at + static_cast<off_t>(begin));
        if (length != static_cast<ssize_t>(3 * line)) fail(length < 0 ? errno : EIO); // it was made shorter meanwhile
        return field.size();
    }

    LdvbiFieldReadings read(const std::vector<std::uint8_t> &field) const {
        LdvbiFieldReadings readings;
        check(ldvbi_recover_fields(system_, black_, white_, field.data(), field.size(), nullptr, 0, &readings,
                                   1));
        return readings;
    }

private:
    [[noreturn]] static void fail(int error) {
        throw std::runtime_error(std::string("standard input: ") + std::strerror(error));
    }

    std::uint32_t system_, black_, white_;
};

std::optional<LdvbiCode> find_code(const LdvbiReading &line, std::uint32_t kind) {
    LdvbiCode code;
    if (line.cause != LDVBI_WORD || ldvbi_classify(line.word, &code) != LDVBI_DONE || code.kind != kind)
        return std::nullopt;
    return code;
}

// Whether a player stops at a field: line 16 or 17 shows a stop in pass 1, or both show it.
bool has_stop(const LdvbiFieldReadings &field) {
    std::uint32_t stop;
    check(ldvbi_judge_stops(&field, 1, &stop, 1));
    return stop == LDVBI_BELIEVED;
}

// A picture's number stands on lines 17 and 18. If the two differ, one was misread.
std::optional<std::uint32_t> find_picture(const LdvbiFieldReadings &field) {
    const auto first = find_code(field.lines[1], LDVBI_PICTURE), second = find_code(field.lines[2], LDVBI_PICTURE);
    if (first && second && first->first != second->first) return std::nullopt;
    if (first) return first->first;
    if (second) return second->first;
    return std::nullopt;
}

// The picture of each field, as far as it is known. A stream on which no number is believed is too short to be judged,
// or has too few numbers. For such a stream, and only for such a one, what the lines say is taken as it is.
std::vector<std::optional<std::uint32_t>> find_pictures(std::uint32_t system,
                                                        const std::vector<LdvbiFieldReadings> &fields) {
    std::vector<LdvbiSightings> seen(fields.size());
    std::vector<LdvbiNumber> numbers(fields.size());
    check(ldvbi_judge(system, LDVBI_PICTURES, LDVBI_FIND_PACE, fields.data(), fields.size(), seen.data(), seen.size(),
                      numbers.data(), numbers.size()));
    const bool are_judged = std::any_of(numbers.begin(), numbers.end(),
                                        [](const LdvbiNumber &number) { return number.state == LDVBI_BELIEVED; });
    std::vector<std::optional<std::uint32_t>> pictures(fields.size());
    for (std::size_t i = 0; i < fields.size(); i++) {
        if (!are_judged) pictures[i] = find_picture(fields[i]);
        else if (numbers[i].state == LDVBI_BELIEVED || numbers[i].state == LDVBI_DUE) pictures[i] = numbers[i].number;
    }
    return pictures;
}

// Prints the fields with a stop, from 1, and how many there are.
void print_stops(std::uint32_t system, const std::vector<LdvbiFieldReadings> &fields) {
    const auto pictures = find_pictures(system, fields);
    std::size_t stops = 0;
    for (std::size_t i = 0; i < fields.size(); i++) {
        if (!has_stop(fields[i])) continue;
        stops++;
        std::cout << "field " << i + 1;
        if (pictures[i]) std::cout << " picture " << *pictures[i];
        std::cout << '\n';
    }
    std::cout << stops << " stops\n" << std::flush;
    if (!std::cout) throw std::runtime_error("the stops can't be written");
}

} // namespace

int main(int count, char **words) try {
    if (count != 4) throw std::invalid_argument("usage: stops NTSC|PAL BLACK WHITE < FILE");
    const std::uint32_t system = parse_system(words[1]);
    const Reader reader(system, parse_number("black", words[2]), parse_number("white", words[3]));
    std::vector<std::uint8_t> field(reader.field_bytes());
    std::vector<LdvbiFieldReadings> fields;
    const off_t begin = lseek(STDIN_FILENO, 0, SEEK_CUR); // if it is a file
    std::size_t length;
    while ((length = reader.fetch(begin + static_cast<off_t>(fields.size() * field.size()), field)) == field.size())
        fields.push_back(reader.read(field));
    if (length > 0)
        std::cerr << "stops: the last field is cut: field " << fields.size() + 1 << " has " << length << " of "
                  << field.size() << " bytes\n";
    print_stops(system, fields);
} catch (const std::exception &error) {
    std::cerr << "stops: " << error.what() << '\n';
    return 2;
}
