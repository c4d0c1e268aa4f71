// Two threads of one request load the same keys, by the loader that threads share. Its history says what was fetched.
#include "dl_loader.hpp"

#include <atomic>
#include <functional>
#include <future>
#include <iostream>
#include <random>

// Sends what is collected, and fetches it: here the word of a key is the length of its id.
static void fetch(dl::loader &loader, std::uint32_t caller) {
    for (auto &job : loader.dispatch(caller)) {
        std::vector<std::uint64_t> words;
        for (auto &member : job.members()) words.push_back(member.id.size());
        job.settle(words);
    }
}

// The threads that haven't loaded all that they can: the last one fetches for all.
static std::atomic<int> loading = 2;

static std::string request(dl::loader &loader, std::uint32_t caller) try {
    auto tickets = loader.load_many(caller, {{"user", "ada"}, {"user", "grace"}, {"order", "7"}});
    if (--loading == 0) fetch(loader, caller);
    std::string words = "caller " + std::to_string(caller) + ":";
    for (auto &ticket : tickets) {
        dl_shown shown = loader.wait(ticket.cell);
        loader.saw(caller, ticket.ticket);
        words += shown.state == DL_SETTLED ? " " + std::to_string(shown.word) : " no value";
    }
    return words;
} catch (...) {
    loader.stop(); // so that no thread waits for this one
    throw;
}

int main() try {
    std::random_device random;
    std::uniform_int_distribution<std::uint64_t> seed;
    dl_serial_opening opening{};
    opening.max_batch = 100;
    opening.max_cells = 1000;
    opening.max_calls = 5000;
    opening.callers = 2;
    opening.seed_low = seed(random);
    opening.seed_high = seed(random);
    dl::loader loader(opening, {{"order", 20}});
    auto other = std::async(std::launch::async, request, std::ref(loader), 1);
    std::cout << request(loader, 0) << '\n' << other.get() << '\n';
    loader.close();
    for (auto &event : loader.events()) {
        for (auto &key : event.keys) {
            if (key.code == DL_FRESH) std::cout << "fetched " << key.table << ' ' << key.id << " in batch " << key.batch << '\n';
        }
    }
} catch (const dl::refused &fault) {
    std::cerr << fault.what() << '\n';
    return 1;
}
