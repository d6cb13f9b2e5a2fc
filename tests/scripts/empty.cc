// From C++: empty vectors are passed by tinshrew_bytes, and the linked library goes with this header.
#include <cstdio>
#include <vector>

#include "tinshrew.h"

static int failed = 0;

static void expect(bool holds, const char *what) {
    if (!holds) {
        std::printf("not so: %s\n", what);
        failed = 1;
    }
}

int main() {
    expect(tinshrew_version() == TINSHREW_VERSION, "the version is the header's");
    expect(tinshrew_cells(TINSHREW_WORK) == TINSHREW_WORK_CELLS, "the work cells are the header's");
    expect(tinshrew_cells(TINSHREW_LISTS) == TINSHREW_LIST_CELLS, "the list cells are the header's");
    expect(tinshrew_cells(0) == 0, "no buffer has the number 0");
    expect(tinshrew_cells(TINSHREW_LISTS + 1) == 0, "no buffer has the next number");

    const std::vector<uint8_t> none;
    const uint8_t one = 1;
    expect(tinshrew_bytes(nullptr) != nullptr, "what is passed for no bytes is not null");
    expect(tinshrew_bytes(&one) == &one, "what is passed for a byte is its address");
    std::size_t figures[TINSHREW_CHECK_OUT];
    tinshrew_check_plan(tinshrew_bytes(none.data()), none.size(), figures);
    expect(figures[0] == TINSHREW_TRUNCATED && figures[1] == 0, "an empty plan is declined with 1 at 0");

    // One kitchen and one slot with one dish, and no turns.
    const std::vector<uint8_t> plan = {1, 0, 3, 1, 1, 0, 0, 6, 1, 1, 0, 11, 0, 0};
    std::vector<uint16_t> work(TINSHREW_WORK_CELLS), lists(TINSHREW_LIST_CELLS);
    std::size_t report[TINSHREW_RUN_OUT];
    tinshrew_run_turns(tinshrew_bytes(plan.data()), plan.size(), tinshrew_bytes(none.data()), none.size(), work.data(),
                       work.size(), lists.data(), lists.size(), report);
    expect(report[0] == 0 && report[1] == TINSHREW_OPEN && report[2] == 0, "no turns leave the plan open");
    expect(lists[0] == 1, "its dish is listed");
    return failed;
}
