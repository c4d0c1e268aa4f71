/* A C++ program that makes the calls of dl_loader.hpp. It prints each check that fails, and how many passed. */
#include "dl_loader.hpp"

#include <cstdio>
#include <cstdlib>
#include <new>
#include <thread>
#include <type_traits>

static unsigned passed, failed;
static bool is_out_of_memory;

void *operator new(std::size_t size) {
    void *at = is_out_of_memory ? nullptr : std::malloc(size);
    if (at == nullptr) throw std::bad_alloc();
    return at;
}

void operator delete(void *at) noexcept { std::free(at); }
void operator delete(void *at, std::size_t) noexcept { std::free(at); }

static void check(bool holds, const char *what, int line) {
    ++(holds ? passed : failed);
    if (!holds) std::printf("loader_calls.cpp:%d: %s\n", line, what);
}

#define CHECK(holds) check((holds), #holds, __LINE__)

static dl_serial_opening opening(std::uint32_t callers) {
    return {2, 64, 256, callers, 1, 2};
}

/// The code by which a call is refused, or DL_DONE.
template <class Call> static std::uint32_t refusal(Call call) {
    try {
        call();
    } catch (const dl::refused &fault) {
        return fault.code;
    }
    return DL_DONE;
}

static bool is(const dl_loaded &answer, std::uint32_t code, std::uint32_t cell, std::uint32_t batch) {
    return answer.code == code && answer.cell == cell && answer.batch == batch;
}

static bool is(const dl::loaded_key &key, std::string_view table, std::string_view id, std::uint32_t code, std::uint32_t cell, std::uint32_t batch) {
    return key.table == table && key.id == id && is(key, code, cell, batch);
}

static bool shows(dl_shown shown, std::uint32_t state, std::uint64_t word) {
    return shown.state == state && shown.word == word;
}

static void each_call_answers() {
    dl::loader loader(opening(1));
    CHECK(loader.load(0, {"user", "ada"}).code == DL_FRESH);
    dl_ticket again = loader.load(0, {"user", "ada"});
    CHECK(again.code == DL_HIT && again.cell == 0 && again.ticket == 1);
    CHECK(loader.load(0, {"user", "bob"}).cell == 1);
    CHECK(loader.prime(0, {"order", "7"}, 70) && !loader.prime(0, {"order", "7"}, 71));
    CHECK(shows(loader.look(2), DL_SETTLED, 70) && shows(loader.look(0), DL_EMPTY, 0));
    CHECK(!loader.saw(0, 0));
    auto jobs = loader.dispatch(0);
    CHECK(jobs.size() == 1 && jobs[0].batch() == 0 && loader.dispatch(0).empty());
    auto members = jobs[0].members();
    CHECK(members.size() == 2 && is(members[1], "user", "bob", DL_HIT, 1, 0));
    CHECK(refusal([&] { jobs[0].settle({}); }) == DL_BAD_LENGTHS);
    jobs[0].settle({5, 6});
    CHECK(shows(loader.wait(0), DL_SETTLED, 5) && loader.saw(0, 0));
    loader.clear(0, {"user", "ada"});
    CHECK(loader.load(0, {"user", "ada"}).cell == 3);
    loader.clear_all(0);
    CHECK(loader.load(0, {"order", "7"}).cell == 4);
    CHECK(refusal([&] { loader.close(); }) == DL_UNSETTLED);
    for (auto &job : loader.dispatch(0)) job.fail(9);
    CHECK(shows(loader.look(3), DL_FAILED, 9));
    loader.close();
    CHECK(dl_loader_event(loader.get(), 0).code == DL_DONE);
    CHECK(refusal([&] { loader.stop(); }) == DL_CLOSED);
}

static void several_keys_are_one_call() {
    dl::loader loader(opening(1));
    auto tickets = loader.load_many(0, {{"user", "ada"}, {"order", "7"}, {"user", "ada"}});
    CHECK(tickets.size() == 3 && tickets[0].code == DL_FRESH && tickets[1].cell == 1);
    CHECK(tickets[2].code == DL_HIT && tickets[2].cell == 0 && tickets[2].ticket == 2);
    CHECK(loader.load_many(0, {}).empty());
    CHECK(refusal([&] { loader.load_many(0, {{"user", "bob"}, {"user", ""}}); }) == DL_BAD_KEY);
    CHECK(loader.load(0, {"user", "bob"}).code == DL_FRESH);
}

static void a_batch_may_be_of_one_table() {
    dl::loader loader(opening(1), {{"user", 3}, {"order", 1}});
    loader.load_many(0, {{"user", "a"}, {"order", "1"}, {"user", "b"}, {"order", "2"}, {"user", "c"}, {"page", "x"}, {"page", "y"}, {"page", "z"}});
    std::vector<std::size_t> sizes;
    for (auto &job : loader.dispatch(0)) sizes.push_back(job.members().size());
    CHECK((sizes == std::vector<std::size_t>{3, 1, 1, 2, 1}));
    CHECK(refusal([] { dl::loader loader(opening(1), {}); }) == DL_DONE);
    CHECK(refusal([] { dl::loader loader(opening(1), {{"user", 0}}); }) == DL_BAD_TABLE_LIMIT);
    CHECK(refusal([] { dl::loader loader(opening(1), {{"user", 1}, {"user", 1}}); }) == DL_DUPLICATE_TABLE);
    CHECK(refusal([] { dl::loader loader(opening(1), {{{}, 1}}); }) == DL_EMPTY_TABLE);
}

static void the_history_is_read_after_the_close() {
    dl::loader loader(opening(2));
    auto ticket = loader.load(1, {"user", "ada"});
    loader.load_many(0, {{"user", "ada"}, {"user", "bob"}, {"user", "eve"}});
    loader.prime(0, {"user", "bob"}, 3);
    loader.clear(0, {"user", "bob"});
    for (auto &job : loader.dispatch(1)) job.settle(std::vector<std::uint64_t>(job.members().size()));
    loader.saw(1, ticket.ticket);
    CHECK(refusal([&] { loader.events(); }) == DL_OPEN && refusal([&] { loader.entries(0); }) == DL_OPEN);
    loader.close();
    auto events = loader.events();
    CHECK(events.size() == 7);
    CHECK(events[0].caller == 1 && events[0].call == DL_CALL_LOAD && events[0].keys.size() == 1);
    CHECK(is(events[0].keys[0], "user", "ada", DL_FRESH, 0, 0));
    CHECK(events[1].caller == 0 && events[1].call == DL_CALL_LOAD_MANY && events[1].keys.size() == 3);
    CHECK(is(events[1].keys[0], "user", "ada", DL_HIT, 0, 0) && is(events[1].keys[2], "user", "eve", DL_FRESH, 2, 1));
    CHECK(events[2].call == DL_CALL_PRIME && is(events[2].keys[0], "user", "bob", DL_HIT, 0, 0));
    CHECK(events[3].call == DL_CALL_CLEAR && events[4].call == DL_CALL_DISPATCH && events[4].keys.empty() && events[4].batches == 2);
    CHECK(events[6].call == DL_CALL_SETTLE && events[6].batch == 1);
    auto entries = loader.entries(1);
    CHECK(entries.size() == 5 && entries[0].at == 0 && entries[3].at == 6);
    CHECK(entries[4].kind == DL_ENTRY_SAW && entries[4].at == 5 && entries[4].cell == 0);
    CHECK(loader.entries(0).size() == 3 && loader.entries(2).empty());
}

static void what_is_refused_is_thrown() {
    CHECK(refusal([] { dl::loader loader(opening(0)); }) == DL_BAD_CALLERS);
    dl::loader loader(opening(1));
    CHECK(refusal([&] { loader.load(0, {"", "ada"}); }) == DL_BAD_KEY);
    CHECK(refusal([&] { loader.load(0, {{}, {}}); }) == DL_BAD_KEY);
    CHECK(refusal([&] { loader.prime(1, {"user", "ada"}, 1); }) == DL_NO_CALLER);
    CHECK(refusal([&] { loader.saw(0, 0); }) == DL_NO_TICKET);
    loader.stop();
    CHECK(refusal([&] { (void)loader.dispatch(0); }) == DL_STOPPED);
    CHECK(refusal([&] { loader.clear_all(0); }) == DL_STOPPED);
    CHECK(dl::refused("load", DL_BAD_KEY).what() == std::string("load was refused: DL_BAD_KEY"));
}

static void a_job_that_goes_fails() {
    dl::loader loader(opening(1));
    for (const char *id : {"a", "b", "c", "d", "e"}) loader.load(0, {"user", id});
    {
        auto jobs = loader.dispatch(0);
        CHECK(jobs.size() == 3);
        auto moved = std::move(jobs[0]);
        jobs.clear();
        CHECK(shows(loader.look(0), DL_EMPTY, 0) && shows(loader.look(4), DL_FAILED, 0));
    }
    for (std::uint32_t cell = 0; cell < 5; cell++) CHECK(shows(loader.wait(cell), DL_FAILED, 0));
    loader.close();
}

static void a_job_ends_once() {
    dl::loader loader(opening(1));
    for (const char *id : {"a", "b", "c"}) loader.load(0, {"user", id});
    auto jobs = loader.dispatch(0);
    jobs[0].settle({5, 6});
    CHECK(refusal([&] { jobs[0].settle({5, 6}); }) == DL_ENDED_BEFORE && refusal([&] { jobs[0].fail(7); }) == DL_ENDED_BEFORE);
    CHECK(refusal([&] { jobs[0].members(); }) == DL_ENDED_BEFORE && jobs[0].batch() == 0);
    jobs[1].fail(9);
    CHECK(refusal([&] { jobs[1].settle({1}); }) == DL_ENDED_BEFORE && refusal([&] { jobs[1].members(); }) == DL_ENDED_BEFORE);
    CHECK(shows(loader.look(0), DL_SETTLED, 5) && shows(loader.look(2), DL_FAILED, 9));
    jobs.clear();
    loader.close();
}

static void a_job_is_moved_and_assigned() {
    static_assert(std::is_nothrow_move_assignable_v<dl::job> && !std::is_copy_assignable_v<dl::job>);
    dl::loader loader(opening(1));
    for (const char *id : {"a", "b", "c", "d", "e"}) loader.load(0, {"user", id});
    auto jobs = loader.dispatch(0);
    dl::job first(std::move(jobs[0]));
    CHECK(refusal([&] { jobs[0].settle({1, 2}); }) == DL_ENDED_BEFORE && refusal([&] { jobs[0].members(); }) == DL_ENDED_BEFORE);
    CHECK(refusal([&] { jobs[0].fail(1); }) == DL_ENDED_BEFORE && shows(loader.look(0), DL_EMPTY, 0));
    auto &same = first;
    first = std::move(same);
    CHECK(first.members().size() == 2);
    // The batch that it had fails.
    first = std::move(jobs[1]);
    CHECK(shows(loader.look(0), DL_FAILED, 0) && shows(loader.look(1), DL_FAILED, 0) && shows(loader.look(2), DL_EMPTY, 0));
    CHECK(first.batch() == 1 && refusal([&] { jobs[1].members(); }) == DL_ENDED_BEFORE);
    first.settle({3, 4});
    // One that has ended, and then goes, fails nothing.
    first = std::move(jobs[2]);
    CHECK(shows(loader.look(2), DL_SETTLED, 3) && shows(loader.look(4), DL_EMPTY, 0));
    first.settle({5});
    loader.close();
}

static void a_job_that_nothing_ends_stops_the_loader() {
    dl_serial_opening few = opening(1);
    few.max_calls = 2;
    dl::loader loader(few);
    loader.load(0, {"user", "a"});
    CHECK(refusal([&] { loader.dispatch(0)[0].settle({1}); }) == DL_LOG_FULL);
    CHECK(shows(loader.wait(0), DL_ABANDONED, 0));
}

static void a_dispatch_without_memory_stops_the_loader() {
    dl::loader loader(opening(1));
    loader.load(0, {"user", "a"});
    is_out_of_memory = true;
    try {
        (void)loader.dispatch(0);
        is_out_of_memory = false;
    } catch (const std::bad_alloc &) {
    }
    CHECK(is_out_of_memory);
    is_out_of_memory = false;
    CHECK(shows(loader.wait(0), DL_ABANDONED, 0));
}

static void a_loader_is_moved() {
    dl::loader first(opening(1));
    first.load(0, {"user", "a"});
    dl::loader second(std::move(first));
    CHECK(first.get() == nullptr && second.load(0, {"user", "a"}).code == DL_HIT);
    dl::loader third(opening(1));
    third = std::move(second);
    CHECK(third.load(0, {"user", "a"}).code == DL_HIT && second.get() == nullptr);
    auto &same = third;
    third = std::move(same);
    CHECK(third.load(0, {"user", "a"}).code == DL_HIT);
}

static void a_loader_that_was_moved_takes_no_calls() {
    dl::loader first(opening(1));
    dl::loader second(std::move(first));
    auto is_closed = [](auto call) { return refusal(call) == DL_CLOSED; };
    CHECK(is_closed([&] { first.load(0, {"user", "a"}); }) && is_closed([&] { first.load_many(0, {{"user", "a"}}); }));
    CHECK(is_closed([&] { first.prime(0, {"user", "a"}, 1); }) && is_closed([&] { first.clear(0, {"user", "a"}); }));
    CHECK(is_closed([&] { first.clear_all(0); }) && is_closed([&] { (void)first.dispatch(0); }));
    CHECK(is_closed([&] { first.look(0); }) && is_closed([&] { first.wait(0); }));
    CHECK(is_closed([&] { first.wait_for(0, std::chrono::hours(1)); }));
    CHECK(is_closed([&] { first.wait_until(0, std::chrono::steady_clock::now()); }));
    CHECK(is_closed([&] { first.saw(0, 0); }) && is_closed([&] { first.stop(); }) && is_closed([&] { first.close(); }));
    CHECK(is_closed([&] { first.events(); }) && is_closed([&] { first.entries(0); }) && is_closed([&] { first.write_history(stdout); }));
    second.close();
}

static void a_history_is_written() {
    dl::loader loader(opening(1), {{"user", 1}});
    loader.load(0, {"user", "a"});
    for (auto &job : loader.dispatch(0)) job.fail(0);
    char text[200] = {};
    FILE *to = fmemopen(text, sizeof text, "w");
    CHECK(to != nullptr && refusal([&] { loader.write_history(to); }) == DL_OPEN);
    loader.close();
    loader.write_history(to);
    CHECK(std::fclose(to) == 0);
    CHECK(text == std::string("{\"script\":2,\"maxBatchSize\":2,\"maxCells\":64,\"maxCalls\":256,\"tableLimits\":[[\"user\",1]],"
                              "\"calls\":[{\"load\":[\"user\",\"a\"]},{\"dispatch\":true},{\"fail\":0}]}\n[[0,1,0,0],[0,0],[0]]\n"));
}

static void a_wait_has_a_deadline() {
    using namespace std::chrono_literals;
    dl::loader loader(opening(1));
    loader.load(0, {"user", "a"});
    CHECK(shows(loader.wait_for(0, 0ns), DL_EMPTY, 0) && shows(loader.wait_for(0, 20ms), DL_EMPTY, 0));
    CHECK(shows(loader.wait_until(0, std::chrono::steady_clock::now() - 1h), DL_EMPTY, 0));
    CHECK(shows(loader.wait_until(0, std::chrono::steady_clock::time_point::min()), DL_EMPTY, 0));
    CHECK(shows(loader.wait_for(0, -1ns), DL_EMPTY, 0) && shows(loader.wait_for(0, std::chrono::hours::min()), DL_EMPTY, 0));
    CHECK(shows(loader.wait_for(0, std::chrono::duration<float, std::milli>(0.5f)), DL_EMPTY, 0));
    std::vector<dl_shown> shown(6);
    std::vector<std::thread> waits;
    auto wait = [&](auto most) { waits.emplace_back([&, most, at = waits.size()] { shown[at] = loader.wait_for(0, most); }); };
    wait(std::chrono::nanoseconds::max());
    wait(std::chrono::seconds::max());
    wait(std::chrono::hours::max());
    wait(std::chrono::duration<std::int64_t, std::ratio<86400>>::max());
    wait(std::chrono::duration<double>::max());
    waits.emplace_back([&] { shown[5] = loader.wait_until(0, std::chrono::steady_clock::time_point::max()); });
    // A wait that ends at once would find the cell empty.
    std::this_thread::sleep_for(20ms);
    loader.dispatch(0)[0].settle({3});
    for (auto &thread : waits) thread.join();
    for (auto &each : shown) CHECK(shows(each, DL_SETTLED, 3));
    CHECK(shows(loader.wait_until(0, std::chrono::steady_clock::time_point::min()), DL_SETTLED, 3));
    loader.stop();
    CHECK(shows(loader.wait_until(1, std::chrono::steady_clock::time_point::min()), DL_ABANDONED, 0));
}

static void threads_share_a_loader() {
    enum { THREADS = 4, KEYS = 20 };
    dl::loader loader(opening(THREADS));
    std::vector<std::thread> threads;
    std::vector<unsigned> wrong(THREADS);
    for (std::uint32_t caller = 0; caller < THREADS; caller++) {
        threads.emplace_back([&, caller] {
            for (std::uint64_t key = 0; key < KEYS; key++) {
                dl_ticket ticket = loader.load(caller, {"user", std::to_string(key)});
                for (auto &job : loader.dispatch(caller)) {
                    std::vector<std::uint64_t> words;
                    for (auto &member : job.members()) words.push_back(std::stoull(member.id));
                    job.settle(words);
                }
                wrong[caller] += !shows(loader.wait(ticket.cell), DL_SETTLED, key) || !loader.saw(caller, ticket.ticket);
            }
        });
    }
    for (auto &thread : threads) thread.join();
    for (unsigned count : wrong) CHECK(count == 0);
    CHECK(loader.look(KEYS - 1).state == DL_SETTLED && loader.look(KEYS).state == DL_EMPTY);
    loader.close();
}

int main() {
    each_call_answers();
    several_keys_are_one_call();
    a_batch_may_be_of_one_table();
    the_history_is_read_after_the_close();
    what_is_refused_is_thrown();
    a_job_that_goes_fails();
    a_job_ends_once();
    a_job_is_moved_and_assigned();
    a_job_that_nothing_ends_stops_the_loader();
    a_dispatch_without_memory_stops_the_loader();
    a_loader_is_moved();
    a_loader_that_was_moved_takes_no_calls();
    a_history_is_written();
    a_wait_has_a_deadline();
    threads_share_a_loader();
    std::printf("%u passed, %u failed\n", passed, failed);
    return failed == 0 ? 0 : 1;
}
