// Holds the library to its header from C++: vector SHEET REPORT, an accepted sheet and its report.
//
// A vector that is empty may have null for its data, which the library must not be handed: hallviska_balance_nullable and
// hallviska_mean_of_nullable see to it. It prints one line, or what is not as due, and ends with status 1.
#include <algorithm>
#include <cstdio>
#include <cstring>
#include <fstream>
#include <iterator>
#include <sstream>
#include <string>
#include <vector>

#include "hallviska.h"
#include "hallviska.h"
#include "hallviska_words.h"

namespace {

using bytes = std::vector<std::uint8_t>;
int faults = 0, calls = 0;

bytes read(const char *name)
{
    std::ifstream file(name, std::ios::binary);
    return bytes(std::istreambuf_iterator<char>(file), std::istreambuf_iterator<char>());
}

void due(const char *what, bool holds)
{
    calls++;
    if (holds)
        return;
    std::printf("vector: not as due: %s\n", what);
    faults++;
}

hallviska_answer asked(const bytes &sheet, bytes &report)
{
    return hallviska_balance_nullable(sheet.data(), sheet.size(), report.data(), report.size());
}

// Whether this line of a sheet has words, and these tell of as many numbers as stand there. Those of the gas are named one by one.
bool told(const std::string &line, std::uint32_t edition)
{
    const std::string key = line.substr(0, line.find('=')), words = hallviska_sheet_words(key.c_str(), edition);
    const auto parts = std::count(words.begin(), words.end(), key == "gas" ? ',' : ';');
    return words != hallviska_sheet_words("", edition) && parts == std::count(line.begin(), line.end(), ',') + (key == "gas" ? 1 : 0);
}

bool is(const hallviska_mean &answer, std::uint32_t refusal, std::uint32_t reading, std::int32_t mean)
{
    return answer.refusal == refusal && answer.reading == reading && answer.mean == mean;
}

bool is(const hallviska_answer &answer, std::uint32_t refusal, std::uint32_t line, std::uint32_t field, std::size_t length)
{
    return answer.refusal == refusal && answer.line == line && answer.field == field && answer.length == length;
}

}

int main(int count, char **names)
{
    if (count != 3)
        return 2;
    const bytes sheet = read(names[1]), report = read(names[2]), none;
    bytes room(HALLVISKA_REPORT_MOST, 0x5a), no_room;

    due("the data of an empty vector is null here, or this tries nothing", none.data() == nullptr && no_room.data() == nullptr);
    due("the version", hallviska_version() == HALLVISKA_VERSION);
    due("an empty sheet", is(asked(none, room), HALLVISKA_TORN, 1, 0, 0) && room == bytes(room.size(), 0x5a));
    due("an empty sheet and no room", is(asked(none, no_room), HALLVISKA_TORN, 1, 0, 0));
    due("no room", is(asked(sheet, no_room), HALLVISKA_NO_ROOM, 0, 0, 0));
    due("an accepted sheet", is(asked(sheet, room), HALLVISKA_ACCEPTED, 0, 0, report.size()));
    due("its report", !report.empty() && std::memcmp(room.data(), report.data(), report.size()) == 0);
    due("what is behind it", bytes(room.begin() + static_cast<std::ptrdiff_t>(report.size()), room.end()) ==
                                 bytes(room.size() - report.size(), 0x5a));
    // 20.25 and 20.75 degrees, and then an infinity
    const bytes readings = {0x00, 0x00, 0xa2, 0x41, 0x00, 0x00, 0xa6, 0x41}, broken = {0x00, 0x00, 0xa2, 0x41, 0x00, 0x00, 0x80, 0x7f};
    due("no readings", is(hallviska_mean_of_nullable(none.data(), none.size()), HALLVISKA_READINGS_LENGTH, 0, 0));
    due("two readings", is(hallviska_mean_of_nullable(readings.data(), readings.size()), HALLVISKA_READINGS_TAKEN, 0, 205));
    due("a reading that is no number", is(hallviska_mean_of_nullable(broken.data(), broken.size()), HALLVISKA_READING_NOT_FINITE, 2, 0));
    // every refusal and every line has words of its own, and so has what is not known
    for (std::uint32_t one = 17; one <= 21; one++)
        for (std::uint32_t other = 17; other < one; other++)
            due("the words of a reading's refusal", (one == 21 && other == 17) !=
                                                        (std::strcmp(hallviska_reading_words(one), hallviska_reading_words(other)) != 0));
    for (std::uint32_t one = 0; one <= 15; one++)
        for (std::uint32_t other = 0; other < one; other++)
            due("the words of a refusal", std::strcmp(hallviska_refusal_words(one), hallviska_refusal_words(other)) != 0);
    for (std::uint32_t one = 0; one <= HALLVISKA_LINES; one++)
        for (std::uint32_t other = 0; other < one; other++)
            due("the words of a line", std::strcmp(hallviska_line_words(one), hallviska_line_words(other)) != 0 &&
                                           std::strcmp(hallviska_line_key(one), hallviska_line_key(other)) != 0);
    const std::uint32_t far = 0xffffffff;
    due("what is not known", std::strcmp(hallviska_refusal_words(far), hallviska_refusal_words(HALLVISKA_ANALYSIS + 1)) == 0 &&
                                 std::strcmp(hallviska_reading_words(far), hallviska_reading_words(1)) == 0 &&
                                 std::strcmp(hallviska_line_words(far), hallviska_line_words(HALLVISKA_LINES)) == 0 &&
                                 std::strcmp(hallviska_line_key(far), hallviska_line_key(HALLVISKA_LINES)) == 0 &&
                                 std::strcmp(hallviska_line_unit(far), "?") == 0);
    // the report's own lines have the header's keys, in its order, and a unit each
    std::istringstream printed(std::string(report.begin(), report.end())), filled(std::string(sheet.begin(), sheet.end()));
    std::string line;
    for (std::uint32_t one = 0; one < HALLVISKA_LINES; one++) {
        due("a line's key", std::getline(printed, line) && line.substr(0, line.find('=')) == hallviska_line_key(one));
        due("a line's unit", std::string(hallviska_line_unit(one)) == (one == HALLVISKA_FIRING ? "" : one < HALLVISKA_EFF1 ? "kJ/t" : "0.01 %"));
    }
    due("no line more", !std::getline(printed, line));
    while (std::getline(filled, line))
        due("what a line of the sheet has", told(line, 1));
    due("what a stage of sheet 2 has", told("stage=2000,1100,8200,0,2000,2000,600", 2));
    due("a key that no sheet has", !told("kilowatts=1", 1) && !told("", 2));
    if (faults == 0)
        std::printf("vector: %d facts as due, as C++ of %ld\n", calls, static_cast<long>(__cplusplus));
    return faults == 0 ? 0 : 1;
}
