// The header from C++: a load, a session and a review call.
#include "monitor.h"

#include <cstdio>
#include <cstring>
#include <vector>

static const char only_counts[] = "H    1    0    0    0\n";

int main()
{
    std::vector<uint8_t> state(MONITOR_STATE_BYTES);
    const monitor_verdict verdict =
        monitor_load(reinterpret_cast<const uint8_t *>(only_counts),
                     std::strlen(only_counts), state.data(), state.size());
    const monitor_counts counts = monitor_counts_of(state.data(), state.size());
    const uint64_t opened =
        monitor_open(state.data(), state.size(), 1, 1, 1);
    const bool holds = verdict.number == 0 && counts.number == 0 &&
                       counts.labels == 1 && counts.roles == 0 && opened == 25;
    std::printf("C++, version %s: %s\n", MONITOR_VERSION,
                holds ? monitor_words(0) : "FAILED");
    return holds ? 0 : 1;
}
