// A host in C++: prints word and figures of a judgement, and whether the completion reads back with the same surplus.
#include <cinttypes>
#include <cstdio>
#include <fstream>
#include <iterator>
#include <vector>

#include <kadunfo.h>

static std::vector<std::uint8_t> bytes(const char *path) {
    std::ifstream file(path, std::ios::binary);
    return {std::istreambuf_iterator<char>(file), std::istreambuf_iterator<char>()};
}

int main(int count, char **arguments) {
    if (count != 3) {
        return 2;
    }
    const auto kase = bytes(arguments[1]), plan = bytes(arguments[2]);
    std::uint64_t figures[4] = {0, 0, 0, 0};
    auto word = kadunfo_judge(kase.data(), kase.size(), plan.data(), plan.size(), nullptr, 0, figures, 4);
    std::vector<std::uint8_t> result;
    if (word == KADUNFO_RESULT_REFUSED) {
        result.resize(figures[1]);
        word = kadunfo_judge(kase.data(), kase.size(), plan.data(), plan.size(), result.data(), result.size(), figures, 4);
    }
    std::printf("%" PRIu64 " %" PRId64 " %" PRIu64 " %" PRIu64 " %" PRIu64 "\n", word,
                static_cast<std::int64_t>(figures[0]), figures[1], figures[2], figures[3]);
    if (word == KADUNFO_ACCEPTED) {
        std::vector<std::uint64_t> table(KADUNFO_MOST_NUMBERS);
        const auto surplus = figures[0];
        word = kadunfo_read_completion(kase.data(), kase.size(), result.data(), result.size(), table.data(), table.size(),
                                       figures, 4);
        std::printf("read %d\n", word == KADUNFO_READ && table[figures[0] - 1] == surplus);
    }
    return 0;
}
