// What many write by hand: a mutex around a map from keys to cells, and lists of the keys that wait. It keeps no history, and its words
// are those of loader.c.
#include <cstdint>
#include <cstdlib>
#include <functional>
#include <future>
#include <mutex>
#include <string>
#include <unordered_map>
#include <vector>

namespace {

constexpr std::size_t callers = 4, max_batch = 64;

struct Key {
    std::string table, id;
    bool operator==(const Key &other) const { return table == other.table && id == other.id; }
};

struct HashOfKey {
    std::size_t operator()(const Key &key) const { return 31 * std::hash<std::string>{}(key.table) + std::hash<std::string>{}(key.id); }
};

class Loader {
  public:
    // Whether the load is fresh: nobody loaded the key before.
    bool load(Key key) {
        std::lock_guard<std::mutex> held(lock);
        auto [at, is_fresh] = cells.try_emplace(std::move(key), static_cast<std::uint32_t>(cells.size()));
        if (is_fresh) {
            if (batches.empty() || batches.back().size() == max_batch)
                batches.emplace_back();
            batches.back().push_back(at->first);
        }
        return is_fresh;
    }

  private:
    std::mutex lock;
    std::unordered_map<Key, std::uint32_t, HashOfKey> cells;
    std::vector<std::vector<Key>> batches;
};

std::uint32_t load_each(Loader &loader, std::uint32_t count) {
    std::uint32_t fresh = 0;
    std::string id = "00000";
    for (std::uint32_t number = 0; number < count; number++) {
        fresh += loader.load({"user", id});
        auto digit = id.rbegin();
        while (++*digit > '9')
            *digit++ = '0';
    }
    return fresh;
}

} // namespace

int main(int argc, char **argv) {
    std::uint32_t count = argc > 1 ? static_cast<std::uint32_t>(std::strtoul(argv[1], nullptr, 10)) : 0;
    std::string word = argc > 2 ? argv[2] : "";
    Loader loader;
    if (word == "threads") {
        std::vector<std::future<std::uint32_t>> loads;
        for (std::size_t caller = 0; caller < callers; caller++)
            loads.push_back(std::async(std::launch::async, load_each, std::ref(loader), count));
        std::uint32_t fresh = 0;
        for (auto &load : loads)
            fresh += load.get();
        return fresh != count;
    }
    std::uint32_t fresh = load_each(loader, count);
    return fresh != count || (word == "hits" && load_each(loader, count) != 0);
}
