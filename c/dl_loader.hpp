/* dl_loader.h for C++17: owners that free, jobs that end, texts and deadlines. A call that is refused throws dl::refused with its code. */
#ifndef DL_LOADER_HPP
#define DL_LOADER_HPP
#include "dl_history.h"

#include <chrono>
#include <stdexcept>
#include <string>
#include <string_view>
#include <utility>
#include <vector>

namespace dl {
/// A call that was refused, with its code.
struct refused : std::runtime_error {
    refused(const char *call, uint32_t why) : runtime_error(std::string(call) + " was refused: " + dl_code_name(why)), code(why) {}
    const uint32_t code;
};
struct key { std::string_view table, id; };                     ///< A table and an id in it.
struct table_limit { std::string_view table; uint32_t limit; }; ///< A table, and the most keys of a batch of it.
struct loaded_key : dl_loaded { std::string table, id; };       ///< A key of a batch with its cell, or of the history with its answer.
struct event : dl_event { std::vector<loaded_key> keys; };      ///< A call of the history with its keys.

namespace detail {
inline uint32_t check(const char *call, uint32_t code) { return code <= DL_FRESH ? code : throw refused(call, code); }
template <class Given> Given check(const char *call, Given given) { return check(call, given.code), given; }
inline dl_loader *held(const char *call, dl_loader *loader, uint32_t without) { return loader ? loader : throw refused(call, without); }
/// Pointers to what a vector and a text have, which aren't null if that is nothing.
template <class T> auto *items(T &all) noexcept { static typename T::value_type none{}; return all.empty() ? &none : all.data(); }
inline const uint8_t *bytes(std::string_view text) noexcept { return reinterpret_cast<const uint8_t *>(items(text)); }
/// The keys that a call gives by their index.
template <class Call> std::vector<loaded_key> keys(const char *name, Call call) {
    std::vector<loaded_key> all;
    dl_key_texts key;
    for (dl_loaded at; (at = call(uint32_t(all.size()), &key)).code != DL_NO_MEMBER;)
        all.push_back({check(name, at), {key.table, key.table + key.table_len}, {key.id, key.id + key.id_len}});
    return all;
}
} // namespace detail

/// A batch that was sent. One that goes unended fails with the word 0, or stops the loader. After its end or a move: DL_ENDED_BEFORE.
class job {
    friend class loader;
    dl_loader *loader_;
    uint32_t caller_, batch_;
    job(dl_loader *loader, uint32_t caller, uint32_t batch) noexcept : loader_(loader), caller_(caller), batch_(batch) {}
    dl_loader *held(const char *call) const { return detail::held(call, loader_, DL_ENDED_BEFORE); }
    void end(const char *call, uint32_t code) { detail::check(call, code), loader_ = nullptr; }
public:
    job(job &&other) noexcept : loader_(std::exchange(other.loader_, nullptr)), caller_(other.caller_), batch_(other.batch_) {}
    job &operator=(job other) noexcept {
        return std::swap(loader_, other.loader_), std::swap(caller_, other.caller_), std::swap(batch_, other.batch_), *this;
    }
    ~job() {
        uint32_t code = loader_ ? dl_loader_fail(loader_, caller_, batch_, 0) : uint32_t(DL_DONE);
        if (code != DL_DONE && code != DL_ENDED_BEFORE) dl_loader_stop(loader_);
    }
    uint32_t batch() const noexcept { return batch_; }
    std::vector<loaded_key> members() const {
        return detail::keys("members", [&](auto index, auto *key) { return dl_loader_member(held("members"), batch_, index, key); });
    }
    /// Gives each member its word, in their order.
    void settle(const std::vector<uint64_t> &words) {
        end("settle", dl_loader_settle(held("settle"), caller_, batch_, detail::items(words), words.size()));
    }
    void fail(uint64_t word) { end("fail", dl_loader_fail(held("fail"), caller_, batch_, word)); }
};

/// A loader, which outlives its jobs. Any thread may make any call, but none while it is moved or destroyed; after a move: DL_CLOSED.
class loader {
    dl_loader *held_ = nullptr;
    dl_loader *held(const char *call) const { return detail::held(call, held_, DL_CLOSED); }
    template <class Call, class... More> auto with(key key, const char *name, Call call, uint32_t caller, More... more) {
        auto [table, id] = key;
        return detail::check(name, call(held(name), caller, detail::bytes(table), table.size(), detail::bytes(id), id.size(), more...));
    }
public:
    explicit loader(const dl_serial_opening &opening) { detail::check("open", dl_loader_open(&held_, &opening)); }
    /// A loader of which each batch is of one table.
    loader(const dl_serial_opening &opening, const std::vector<table_limit> &tables) {
        std::string names;
        std::vector<dl_table_limit> limits;
        for (auto &[table, limit] : tables) names += table, limits.push_back({uint32_t(table.size()), limit});
        auto code = dl_loader_open_by_table(&held_, &opening, detail::bytes(names), names.size(), detail::items(limits), limits.size());
        detail::check("open_by_table", code);
    }
    loader(loader &&other) noexcept : held_(std::exchange(other.held_, nullptr)) {}
    loader &operator=(loader other) noexcept { return std::swap(held_, other.held_), *this; }
    ~loader() { dl_loader_free(held_); }
    dl_ticket load(uint32_t caller, key key) { return with(key, "load", dl_loader_load, caller); }
    /// Loads several keys as one call, all or none.
    std::vector<dl_ticket> load_many(uint32_t caller, const std::vector<key> &keys) {
        std::string texts;
        std::vector<dl_key_lengths> lengths;
        for (auto &[table, id] : keys) texts.append(table).append(id), lengths.push_back({uint32_t(table.size()), uint32_t(id.size())});
        std::vector<dl_ticket> tickets(keys.size());
        auto code = dl_loader_load_many(held("load_many"), caller, detail::bytes(texts), texts.size(), detail::items(lengths),
                                        lengths.size(), detail::items(tickets), tickets.size());
        return detail::check("load_many", code), tickets;
    }
    /// True if the key wasn't held, and now has the word.
    bool prime(uint32_t caller, key key, uint64_t word) { return with(key, "prime", dl_loader_prime, caller, word).code == DL_FRESH; }
    void clear(uint32_t caller, key key) { with(key, "clear", dl_loader_clear, caller); }
    void clear_all(uint32_t caller) { detail::check("clear_all", dl_loader_clear_all(held("clear_all"), caller)); }
    /// Sends what is collected. If there is no memory for the jobs, the loader stops.
    [[nodiscard]] std::vector<job> dispatch(uint32_t caller) {
        auto [code, first, count] = detail::check("dispatch", dl_loader_dispatch(held("dispatch"), caller));
        std::vector<job> jobs;
        try { jobs.reserve(count); } catch (...) { dl_loader_stop(held_); throw; }
        for (uint32_t batch = first; batch < first + count; batch++) jobs.push_back(job(held_, caller, batch));
        return jobs;
    }
    dl_shown look(uint32_t cell) const { return dl_loader_look(held("look"), cell); }
    dl_shown wait(uint32_t cell) { return dl_loader_wait(held("wait"), cell); }
    template <class Rep, class Period> dl_shown wait_for(uint32_t cell, std::chrono::duration<Rep, Period> most) {
        auto seconds = std::chrono::duration<double>(most).count();
        if (seconds > 3e9) return wait(cell); // A time_point has no room for much more than these 95 years.
        auto given = std::chrono::ceil<std::chrono::nanoseconds>(seconds > 0 ? most : most.zero());
        return wait_until(cell, std::chrono::steady_clock::now() + given);
    }
    dl_shown wait_until(uint32_t cell, std::chrono::steady_clock::time_point then) { // CLOCK_MONOTONIC is steady, and began at 0.
        std::chrono::nanoseconds::rep at = then.time_since_epoch().count();
        timespec deadline = {time_t(at < 0 ? 0 : at / 1000000000), long(at < 0 ? 0 : at % 1000000000)};
        return dl_loader_wait_until(held("wait_until"), cell, &deadline);
    }
    /// True if the ticket's cell has ended: then it is noted that the caller read it.
    bool saw(uint32_t caller, size_t ticket) { return detail::check("saw", dl_loader_saw(held("saw"), caller, ticket)) == DL_DONE; }
    void stop() { detail::check("stop", dl_loader_stop(held("stop"))); }
    void close() { detail::check("close", dl_loader_close(held("close"))); }
    /// The history of a closed loader: the calls of all callers.
    std::vector<event> events() const {
        std::vector<event> all;
        auto key_of = [&](auto index, auto *key) { return dl_loader_event_key(held_, uint32_t(all.size()), index, key); };
        for (dl_event at; (at = dl_loader_event(held("events"), uint32_t(all.size()))).code != DL_NO_EVENT;)
            all.push_back({detail::check("events", at), detail::keys("events", key_of)});
        return all;
    }
    void write_history(FILE *to) const { detail::check("write_history", dl_write_history(to, held("write_history"))); }
    /// What a caller called and saw, in its order.
    std::vector<dl_entry> entries(uint32_t caller) const {
        std::vector<dl_entry> all;
        for (dl_entry at; (at = dl_loader_entry(held("entries"), caller, all.size())).code != DL_NO_EVENT;)
            all.push_back(detail::check("entries", at));
        return all;
    }
    dl_loader *get() const noexcept { return held_; }
};
} // namespace dl

#endif
