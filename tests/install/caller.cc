// K1 and K12 of document 01 from C++: solve, write the answer, check it and two other tables. answers.txt is what this prints.
#include <mortarleaf.h>

#include <cstdio>
#include <iostream>
#include <vector>

using Bytes = std::vector<uint8_t>;

static const Bytes context{0x1F, 0, 0x43, 0x58, 2, 2, 2, 2, 1, 0, 0, 0, 0, 0, 0, 0, 0, 1, 0, 1, 0, 0, 1, 0, 1, 0, 0, 0, 1, 1, 1, 1, 0};
static const Bytes specification{0x0D, 0, 0x53, 0x50, 2, 2, 1, 0, 0, 0, 0, 0, 1, 1, 0};
static const Bytes one_row{0x0C, 0, 0x43, 0x54, 2, 2, 1, 0, 0, 0, 0, 0, 0, 0};
static const Bytes always_1{0x12, 0, 0x43, 0x54, 2, 2, 1, 0, 0, 0, 0, 1, 0, 0, 0, 0, 1, 1, 0, 0};

static void check(const char *what, const Bytes &controller) {
    std::vector<uint64_t> sets(MORTARLEAF_SET_NUMBERS);
    mortarleaf_reply reply = mortarleaf_check(context.data(), context.size(), specification.data(), specification.size(), controller.data(),
                                              controller.size(), sets.data(), sets.size());
    std::cout << "check of " << what << ": " << reply.number << ", states " << reply.states << "\n";
}

int main() {
    std::vector<uint64_t> sets(MORTARLEAF_SET_NUMBERS);
    std::vector<uint16_t> next(MORTARLEAF_NEXT_NUMBERS);
    mortarleaf_reply reply = mortarleaf_solve(MORTARLEAF_UNBLOCKED, context.data(), context.size(), specification.data(), specification.size(),
                                              sets.data(), sets.size(), next.data(), next.size());
    std::cout << "solve: " << reply.number << ", states " << reply.states << ", rounds " << reply.rounds << "\n";
    for (unsigned place = 0; place < 4 * reply.states; place++)
        if (next[place] != MORTARLEAF_ABSENT)
            std::cout << place / 4 << " " << place / 2 % 2 << " " << place % 2 << " " << next[place] << "\n";
    std::cout << "set of state 0: " << sets[0] << "\n";
    Bytes record(mortarleaf_controller_size(2, 2, reply.states, next.data(), next.size()));
    if (mortarleaf_write_controller(2, 2, reply.states, next.data(), next.size(), record.data(), record.size(), 0).number != 0) return 1;
    std::cout << "record:";
    for (unsigned byte : record) {
        char text[4];
        std::snprintf(text, sizeof text, " %02X", byte & 0xFF);
        std::cout << text;
    }
    std::cout << "\n";
    check("the answer", record);
    check("row 0 0 0 0 alone", one_row);
    check("always 1", always_1);
    return 0;
}
