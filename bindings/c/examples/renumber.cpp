// Renumbers the indices of a module or component by a table of its own, as renumber.c does, from C++.
#include "hyssopplinth.h"
#include <cstring>
#include <fstream>
#include <iostream>
#include <iterator>
#include <map>
#include <utility>
#include <vector>

using Table = std::map<std::pair<uint32_t, uint32_t>, uint32_t>;

// Calls with room for so many items, and once more where it was too small.
template <class Item, class Call>
static std::vector<Item> into(size_t first, reencode_outcome &outcome, Call call) {
    std::vector<Item> room(first);
    if (call(room.data(), room.size()) == REENCODE_TOO_SMALL) {
        room.resize(outcome.length);
        call(room.data(), room.size());
    }
    room.resize(outcome.status == REENCODE_DONE ? outcome.length : 0);
    return room;
}

static std::vector<uint8_t> by_table(const std::vector<uint8_t> &bytes, const Table &table, reencode_outcome &outcome) {
    auto visits = into<reencode_visit>(bytes.size() / 8, outcome, [&](reencode_visit *room, size_t count) {
        return reencode_visits(bytes.data(), bytes.size(), room, count, &outcome);
    });
    if (outcome.status != REENCODE_DONE) return {};
    std::vector<uint32_t> answers;
    answers.reserve(visits.size());
    for (const auto &visit : visits) {
        bool asks = visit.kind == REENCODE_INDEX || visit.kind == REENCODE_OUTER;
        auto entry = asks ? table.find({visit.space, visit.index}) : table.end();
        answers.push_back(entry == table.end() ? visit.index : entry->second);
    }
    return into<uint8_t>(bytes.size(), outcome, [&](uint8_t *room, size_t length) {
        return reencode_answer(bytes.data(), bytes.size(), answers.data(), answers.size(), REENCODE_NO_CEILING, room, length,
                               &outcome);
    });
}

int main(int argc, char **argv) {
    if (argc != 4 && argc != 5) return 2;
    std::ifstream in(argv[2], std::ios::binary);
    if (!in) return 3;
    std::vector<uint8_t> bytes{std::istreambuf_iterator<char>(in), std::istreambuf_iterator<char>()};
    std::vector<reencode_entry> entries;
    Table table;
    if (argc == 5) {
        std::ifstream lines(argv[4]);
        for (reencode_entry entry; lines >> entry.space >> entry.from >> entry.to;) {
            entries.push_back(entry);
            table[{entry.space, entry.from}] = entry.to;
        }
    }
    reencode_outcome outcome;
    std::vector<uint8_t> made;
    if (argc == 4)
        made = into<uint8_t>(bytes.size(), outcome, [&](uint8_t *room, size_t length) {
            return reencode_plain(bytes.data(), bytes.size(), REENCODE_NO_CEILING, room, length, &outcome);
        });
    else if (!std::strcmp(argv[1], "rename"))
        made = into<uint8_t>(bytes.size(), outcome, [&](uint8_t *room, size_t length) {
            return reencode_rename(bytes.data(), bytes.size(), entries.data(), entries.size(), 0, REENCODE_NO_CEILING, room,
                                   length, &outcome);
        });
    else
        made = by_table(bytes, table, outcome);
    if (outcome.status == REENCODE_DONE) {
        std::ofstream out(argv[3], std::ios::binary);
        out.write(reinterpret_cast<const char *>(made.data()), static_cast<std::streamsize>(made.size()));
        if (!out) return 4;
    } else {
        char text[200];
        reencode_say(&outcome, REENCODE_NO_CEILING, text, sizeof text);
        std::cerr << text << '\n';
    }
    return static_cast<int>(outcome.status);
}
