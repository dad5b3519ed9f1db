// The yardsticks of a store's calls by threads: the same mixes of calls as crates/hop_bench, of the same keys drawn in the
// same way. usage: threads STORE MIX KEYS RUN THREADS MILLISECONDS; prints each thread's calls, 0 and nanoseconds. Of MIX
// growth it prints two lines for each: before the table grows, and meanwhile; the first thread makes it grow, and tells of that
// twice.
//
// shards: 64 std::unordered_map, each under a mutex. tbb: oneTBB's concurrent_hash_map. urcu: liburcu's cds_lfht over
// its qsbr flavour; a run is the time between two quiescent states.
#include <chrono>
#include <cstdint>
#include <cstdio>
#include <cstdlib>
#include <cstring>
#include <mutex>
#include <thread>
#include <unordered_map>
#include <vector>
#ifdef WITH_TBB
#include <tbb/concurrent_hash_map.h>
#endif
#ifdef WITH_URCU
#include <urcu/urcu-qsbr.h>
#include <urcu/rculfhash.h>
#endif

static uint64_t key_of(uint64_t number) { return number * 0x9e3779b97f4a7c15u; }

struct Plan {
    const char *mix;
    uint64_t keys, run, threads, milliseconds;

    bool is(const char *name) const { return !strcmp(mix, name); }
    bool fills() const { return is("fill") || is("grow"); }
    bool grows() const { return is("grow") || is("growth"); }
    uint64_t first_keys() const { return keys / 64; }
    bool is_there(uint64_t number) const {
        return is("own")      ? number / threads % 2 == 0
               : is("shared") ? number % 2 == 0
               : fills()      ? false
               : is("growth") ? number < first_keys()
                              : true;
    }
};

struct Shards {
    static constexpr size_t COUNT = 64;
    struct alignas(64) Shard {
        std::mutex mutex;
        std::unordered_map<uint64_t, uint64_t> map;
    };
    std::vector<Shard> shards;

    explicit Shards(uint64_t keys) : shards(COUNT) {
        for (Shard &shard : shards)
            shard.map.reserve(keys / COUNT + 1);
    }
    // the key's high bits, since its map takes the low ones
    Shard &of(uint64_t key) { return shards[key >> 58]; }
    void begin() {}
    void end() {}
    void enter() {}
    void leave() {}
    uint64_t look(uint64_t key) {
        Shard &shard = of(key);
        std::lock_guard<std::mutex> lock(shard.mutex);
        auto found = shard.map.find(key);
        return found == shard.map.end() ? 0 : found->second;
    }
    uint64_t count(uint64_t key) {
        Shard &shard = of(key);
        std::lock_guard<std::mutex> lock(shard.mutex);
        auto found = shard.map.find(key);
        return found == shard.map.end() ? 0 : found->second++;
    }
    void put(uint64_t key) {
        Shard &shard = of(key);
        std::lock_guard<std::mutex> lock(shard.mutex);
        shard.map[key] = key;
    }
    void take(uint64_t key) {
        Shard &shard = of(key);
        std::lock_guard<std::mutex> lock(shard.mutex);
        shard.map.erase(key);
    }
};

#ifdef WITH_TBB
struct Tbb {
    using Map = tbb::concurrent_hash_map<uint64_t, uint64_t>;
    Map map;

    explicit Tbb(uint64_t keys) : map(keys) {}
    void begin() {}
    void end() {}
    void enter() {}
    void leave() {}
    uint64_t look(uint64_t key) {
        Map::const_accessor found;
        return map.find(found, key) ? found->second : 0;
    }
    uint64_t count(uint64_t key) {
        Map::const_accessor found;
        if (!map.find(found, key))
            return 0;
        return __atomic_fetch_add(const_cast<uint64_t *>(&found->second), 1, __ATOMIC_SEQ_CST);
    }
    void put(uint64_t key) {
        Map::accessor found;
        map.insert(found, key);
        found->second = key;
    }
    void take(uint64_t key) { map.erase(key); }
};
#endif

#ifdef WITH_URCU
struct Urcu {
    struct Node {
        cds_lfht_node link;
        rcu_head head;
        uint64_t key, value;
    };
    cds_lfht *table;

    explicit Urcu(uint64_t keys) {
        // one that begins with one bucket grows by a thread of its own
        table = keys == 1 ? cds_lfht_new_flavor(1, 1, 0, CDS_LFHT_AUTO_RESIZE | CDS_LFHT_ACCOUNTING, &urcu_qsbr_flavor, nullptr)
                          : cds_lfht_new_flavor(keys, keys, keys, 0, &urcu_qsbr_flavor, nullptr);
    }
    static uint64_t hash_of(uint64_t key) { return key ^ key >> 32; }
    static int is_key(cds_lfht_node *node, const void *key) {
        return caa_container_of(node, Node, link)->key == *static_cast<const uint64_t *>(key);
    }
    static void free_node(rcu_head *head) { free(caa_container_of(head, Node, head)); }
    void enter() { urcu_qsbr_register_thread(); }
    void leave() { urcu_qsbr_unregister_thread(); }
    void begin() {}
    void end() { urcu_qsbr_quiescent_state(); }
    Node *find(uint64_t key) {
        cds_lfht_iter iter;
        cds_lfht_lookup(table, hash_of(key), is_key, &key, &iter);
        cds_lfht_node *node = cds_lfht_iter_get_node(&iter);
        return node ? caa_container_of(node, Node, link) : nullptr;
    }
    uint64_t look(uint64_t key) {
        Node *node = find(key);
        return node ? __atomic_load_n(&node->value, __ATOMIC_SEQ_CST) : 0;
    }
    uint64_t count(uint64_t key) {
        Node *node = find(key);
        return node ? __atomic_fetch_add(&node->value, 1, __ATOMIC_SEQ_CST) : 0;
    }
    void put(uint64_t key) {
        Node *node = static_cast<Node *>(malloc(sizeof(Node)));
        cds_lfht_node_init(&node->link);
        node->key = node->value = key;
        cds_lfht_node *old = cds_lfht_add_replace(table, hash_of(key), is_key, &key, &node->link);
        if (old)
            urcu_qsbr_call_rcu(&caa_container_of(old, Node, link)->head, free_node);
    }
    void take(uint64_t key) {
        Node *node = find(key);
        if (node && cds_lfht_del(table, &node->link) == 0)
            urcu_qsbr_call_rcu(&node->head, free_node);
    }
};
#endif

// What a thread draws from, and how its calls are drawn.
enum class Mix { Looks, Counts, Most, Half };

template <typename Store> static uint64_t call(Store &store, Mix mix, uint64_t key, uint64_t bits) {
    uint64_t kind = mix == Mix::Looks ? 0 : mix == Mix::Counts ? 100 : mix == Mix::Most ? bits % 100 : 90 + bits % 2 * 9;
    if (kind < 90)
        return store.look(key);
    if (kind < 99)
        store.put(key);
    else if (kind == 99)
        store.take(key);
    else
        return store.count(key);
    return 0;
}

static uint64_t next(uint64_t bits) {
    bits ^= bits << 13;
    bits ^= bits >> 7;
    return bits ^ bits << 17;
}

template <typename Store> static void work(Store &store, const Plan &plan, uint64_t thread, uint64_t *line) {
    Mix mix = plan.is("counts") ? Mix::Counts : plan.is("most") ? Mix::Most : plan.is("own") || plan.is("shared") ? Mix::Half : Mix::Looks;
    bool own = plan.is("own");
    uint64_t count = own ? plan.keys / plan.threads : plan.keys, apart = own ? plan.threads : 1;
    uint64_t from = own ? thread : plan.is("misses") ? plan.keys : 0;
    uint64_t runs_a_look = plan.run > 1024 ? 1 : 1024 / plan.run, calls = 0, found = 0;
    uint64_t bits = next((thread + 1) * 0x2545f4914f6cdd1du);
    store.enter();
    auto start = std::chrono::steady_clock::now();
    std::chrono::nanoseconds spent(0);
    do {
        for (uint64_t run = 0; run < runs_a_look; run++) {
            store.begin();
            for (uint64_t at = 0; at < plan.run; at++) {
                bits = next(bits);
                found += call(store, mix, key_of(((bits >> 32) * count >> 32) * apart + from), bits);
            }
            store.end();
        }
        calls += runs_a_look * plan.run;
        spent = std::chrono::steady_clock::now() - start;
    } while (spent < std::chrono::milliseconds(plan.milliseconds));
    store.leave();
    line[0] = calls, line[1] = spent.count(), line[2] = found;
}

static uint64_t nanoseconds_from(std::chrono::steady_clock::time_point start) {
    return std::chrono::duration_cast<std::chrono::nanoseconds>(std::chrono::steady_clock::now() - start).count();
}

// Adds the keys of all numbers from this one on, so far apart.
template <typename Store> static void put_all(Store &store, const Plan &plan, uint64_t from, uint64_t apart, uint64_t *line) {
    auto start = std::chrono::steady_clock::now();
    uint64_t calls = 0;
    for (uint64_t number = from; number < plan.keys;) {
        store.begin();
        for (uint64_t at = 0; at < plan.run && number < plan.keys; at++, number += apart, calls++)
            store.put(key_of(number));
        store.end();
    }
    line[0] = calls, line[1] = nanoseconds_from(start);
}

template <typename Store> static bool has(Store &store, uint64_t number) {
    store.begin();
    bool found = store.look(key_of(number)) != 0;
    store.end();
    return found;
}

// Looks up until so many nanoseconds have passed or the last key is there, which is looked for behind some 256 calls.
template <typename Store> static void look_until(Store &store, const Plan &plan, uint64_t thread, uint64_t most, uint64_t *line) {
    uint64_t runs_a_look = plan.run > 256 ? 1 : 256 / plan.run, calls = 0, found = 0, passed = 0;
    uint64_t bits = (thread + 1) * 0x2545f4914f6cdd1du;
    auto start = std::chrono::steady_clock::now();
    do {
        for (uint64_t run = 0; run < runs_a_look; run++) {
            store.begin();
            for (uint64_t at = 0; at < plan.run; at++) {
                bits = next(bits);
                found += call(store, Mix::Looks, key_of((bits >> 32) * plan.first_keys() >> 32), bits);
            }
            store.end();
        }
        calls += runs_a_look * plan.run;
        passed = nanoseconds_from(start);
    } while (passed < most && !has(store, plan.keys - 1));
    line[0] = calls, line[1] = passed, line[2] = found;
}

// Thread 0 waits for so long and then makes the table grow; the others look keys up: for so long, and then meanwhile.
template <typename Store> static void grow_or_look(Store &store, const Plan &plan, uint64_t thread, uint64_t *line, uint64_t *second) {
    uint64_t most = plan.milliseconds * 1000000;
    auto start = std::chrono::steady_clock::now();
    store.enter();
    if (thread == 0) {
        while (nanoseconds_from(start) < most + 5000000)
            store.begin(), store.end();
        put_all(store, plan, plan.first_keys(), 1, line);
        memcpy(second, line, 3 * sizeof(uint64_t));
    } else {
        look_until(store, plan, thread, most, line);
        while (!has(store, plan.first_keys()) && nanoseconds_from(start) < 1000000000)
            ;
        look_until(store, plan, thread, 1000000000, second);
    }
    store.leave();
}

template <typename Store> static void fill(Store &store, const Plan &plan, uint64_t thread, uint64_t *line) {
    store.enter();
    put_all(store, plan, thread, plan.threads, line);
    store.leave();
}

template <typename Store> static void measure(const Plan &plan) {
    Store store(plan.grows() ? 1 : plan.keys);
    store.enter();
    for (uint64_t number = 0; number < plan.keys; number++)
        if (plan.is_there(number))
            store.put(key_of(number));
    store.leave();
    struct alignas(64) Line {
        uint64_t words[8];
    };
    bool twice = plan.is("growth");
    std::vector<Line> lines(twice ? 2 * plan.threads : plan.threads);
    std::vector<std::thread> threads;
    for (uint64_t thread = 0; thread < plan.threads; thread++)
        threads.emplace_back([&, thread] {
            if (twice)
                grow_or_look(store, plan, thread, lines[2 * thread].words, lines[2 * thread + 1].words);
            else if (plan.fills())
                fill(store, plan, thread, lines[thread].words);
            else
                work(store, plan, thread, lines[thread].words);
        });
    for (std::thread &thread : threads)
        thread.join();
    for (Line &line : lines)
        printf("%lu 0 %lu\n", line.words[0], line.words[1]);
    fflush(stdout);
    _Exit(0);
}

int main(int, char **argv) {
    const char *store = argv[1];
    Plan plan = {argv[2], strtoul(argv[3], nullptr, 10), strtoul(argv[4], nullptr, 10), strtoul(argv[5], nullptr, 10), strtoul(argv[6], nullptr, 10)};
    if (!strcmp(store, "shards"))
        measure<Shards>(plan);
#ifdef WITH_TBB
    if (!strcmp(store, "tbb"))
        measure<Tbb>(plan);
#endif
#ifdef WITH_URCU
    if (!strcmp(store, "urcu"))
        measure<Urcu>(plan);
#endif
    return 1;
}
