// What the programs here take of libbpf's header of this name, for a C compiler of the host: maps are
// plain tables of one thread, and the CPU is the job's (host.c).
#pragma once
#include <linux/bpf.h>
#define SEC(name)
#define __uint(name, number) int (*name)[number]
#define __type(name, type) typeof(type) *name

struct table {
    const void *map;
    const char *name;
    unsigned type, key, value, most, count;
    unsigned char *pairs;
};

extern __u32 host_cpu;
struct table *host_table(const void *map, const char *name, unsigned type, unsigned key, unsigned value, unsigned most);
void *host_lookup(struct table *table, const void *key);
long host_update(struct table *table, const void *key, const void *value, __u64 flags);
long host_delete(struct table *table, const void *key);

#define NUMBER(of) (sizeof(*(of)) / sizeof(int))
#define HOST(map) host_table(map, #map, NUMBER((map)->type), sizeof(*(map)->key), sizeof(*(map)->value), NUMBER((map)->max_entries))
#define bpf_map_lookup_elem(map, k) host_lookup(HOST(map), k)
#define bpf_map_update_elem(map, k, v, flags) host_update(HOST(map), k, v, flags)
#define bpf_map_delete_elem(map, k) host_delete(HOST(map), k)
#define bpf_get_smp_processor_id() host_cpu
