// Throws through fifty calls and catches, a thousand times: unwinding by what older_glibc.c has in place of glibc's own.
#include <stdexcept>

__attribute__((noinline)) static void throws(int calls) {
    if (calls == 0)
        throw std::runtime_error("thrown");
    throws(calls - 1);
}

int main() {
    int caught = 0;
    for (int i = 0; i < 1000; i++) {
        try {
            throws(i % 50);
        } catch (const std::runtime_error &) {
            caught++;
        }
    }
    return caught != 1000;
}
