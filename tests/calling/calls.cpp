// The header in C++, and a handle that frees what it holds.
#include "derguard.h"

#include <cstdio>
#include <cstring>
#include <fstream>
#include <iterator>
#include <string>
#include <utility>

static std::string file_of(const char *path) {
    std::ifstream file(path, std::ios::binary);
    return std::string(std::istreambuf_iterator<char>(file), {});
}

static const uint8_t *octets_of(const std::string &text) { return reinterpret_cast<const uint8_t *>(text.data()); }

class Policy {
  public:
    Policy() = default;
    Policy(Policy &&other) noexcept : held(std::exchange(other.held, derguard_policy DERGUARD_EMPTY)) {}
    Policy &operator=(Policy &&) = delete;
    ~Policy() { derguard_free(&held); }

    uint32_t load(const std::string &module, const std::string &text) {
        derguard_octets modules[1] = {{octets_of(module), module.size()}};
        size_t needed = 0;
        return derguard_load(&held, modules, 1, octets_of(text), text.size(), nullptr, 0, &needed);
    }
    bool passes(const std::string &names, const std::string &message) {
        return derguard_passes(&held, octets_of(names), names.size(), octets_of(message), message.size());
    }

  private:
    derguard_policy held = DERGUARD_EMPTY;
};

int main() {
    const std::string names("\5north\5south\5order");
    const std::string good("\x30\x0b\x80\x01\x05\x81\x01\x01\xa4\x03\x02\x01\x07");
    Policy policy;
    if (policy.passes(names, good) || policy.load("", "") != DERGUARD_REFUSED ||
        policy.load(file_of("examples/orders.asn1"), file_of("examples/orders.toml")) != DERGUARD_OK)
        return 1;
    Policy moved(std::move(policy));
    return moved.passes(names, good) && !moved.passes(names, "") && !policy.passes(names, good) ? 0 : 1;
}
