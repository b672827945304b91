// fj.h in C++: a machine that is freed at the end of its scope.
#include "fj.h"

#include <cstdio>

namespace {
struct Machine {
    fj_machine at = FJ_MACHINE_INIT;
    Machine() = default;
    Machine(const Machine &) = delete;
    ~Machine() { fj_free(&at); }
};
}

int main() {
    Machine m;
    if (fj_new(&m.at, FJ_ASYNC, 1, 1, 4, 16).code != FJ_DONE) return 1;
    if (fj_submit(&m.at, 0).code != FJ_TASK) return 2;
    fj_reply r = fj_poll(&m.at, 0, 0);
    std::printf("%s %llu\n", fj_meaning(r.code), static_cast<unsigned long long>(r.number));
    return fj_refused(fj_end(&m.at, 0, FJ_OK, 0)) ? 3 : 0;
}
