// Runs ENTRY once for each line `CPU DIGITS` of standard input, one after the other, and prints what
// `ebpf run --maps` prints of such jobs: bpf-helpers(7) over plain tables. After that it prints the bytes of
// each global variable, in a line `global NAME DIGITS`.
#include <stdio.h>
#include <stdlib.h>
#include <string.h>
#include <bpf/bpf_helpers.h>

enum { CPUS = 16 };

int ENTRY(const __u8 *context);
// tests/programs/compare writes it: a call of host_variable for each.
void host_variables(void);

__u32 host_cpu;
static struct table tables[16];
static unsigned count;

struct table *host_table(const void *map, const char *name, unsigned type, unsigned key, unsigned value, unsigned most)
{
    for (unsigned i = 0; i < count; i++)
        if (tables[i].map == map)
            return &tables[i];
    tables[count] = (struct table){ map, name + 1, type, key, value, most, 0, calloc((size_t)most * CPUS, key + value) };
    return &tables[count++];
}

// The value of an index of an array: of this CPU, where each has its own.
static unsigned char *value_of(struct table *it, unsigned index, unsigned cpu)
{
    unsigned copy = it->type == BPF_MAP_TYPE_PERCPU_ARRAY ? cpu : 0;
    return it->pairs + ((size_t)copy * it->most + index) * it->value;
}

static unsigned char *indexed(struct table *it, const void *key)
{
    __u32 index;
    memcpy(&index, key, sizeof(index));
    return index < it->most ? value_of(it, index, host_cpu) : 0;
}

static unsigned char *pair(struct table *it, unsigned i)
{
    return it->pairs + (size_t)i * (it->key + it->value);
}

static unsigned char *find(struct table *it, const void *key)
{
    for (unsigned i = 0; i < it->count; i++)
        if (!memcmp(pair(it, i), key, it->key))
            return pair(it, i);
    return 0;
}

void *host_lookup(struct table *it, const void *key)
{
    if (it->type != BPF_MAP_TYPE_HASH)
        return indexed(it, key);
    unsigned char *found = find(it, key);
    return found ? found + it->key : 0;
}

static long update_array(struct table *it, const void *key, const void *value, __u64 flags)
{
    unsigned char *found = indexed(it, key);
    if (!found)
        return -7;
    if (flags == BPF_NOEXIST)
        return -17;
    memmove(found, value, it->value);
    return 0;
}

long host_update(struct table *it, const void *key, const void *value, __u64 flags)
{
    if (flags > BPF_EXIST)
        return -22;
    if (it->type != BPF_MAP_TYPE_HASH)
        return update_array(it, key, value, flags);
    unsigned char *found = find(it, key);
    if (found && flags == BPF_NOEXIST)
        return -17;
    if (!found && flags == BPF_EXIST)
        return -2;
    if (!found && it->count == it->most)
        return -7;
    if (!found)
        memcpy(found = pair(it, it->count++), key, it->key);
    memmove(found + it->key, value, it->value);
    return 0;
}

long host_delete(struct table *it, const void *key)
{
    if (it->type != BPF_MAP_TYPE_HASH)
        return -22;
    unsigned char *found = find(it, key);
    if (!found)
        return -2;
    memmove(found, pair(it, --it->count), it->key + it->value);
    return 0;
}

static void print_bytes(const unsigned char *bytes, unsigned size)
{
    for (unsigned i = 0; i < size; i++)
        printf("%02x", bytes[i]);
}

void host_variable(const char *name, const void *bytes, unsigned size)
{
    printf("global %s ", name);
    print_bytes(bytes, size);
    puts("");
}

static void print_array(struct table *it)
{
    unsigned cpus = it->type == BPF_MAP_TYPE_PERCPU_ARRAY ? CPUS : 1;
    for (unsigned i = 0; i < it->most; i++)
        for (unsigned cpu = 0; cpu < cpus; cpu++) {
            unsigned char *value = value_of(it, i, cpu), any = 0;
            for (unsigned b = 0; b < it->value; b++)
                any |= value[b];
            if (!any)
                continue;
            printf(cpus > 1 ? "array %s %u cpu %u=" : "array %s %u=", it->name, i, cpu);
            print_bytes(value, it->value);
            puts("");
        }
}

static void print_map(struct table *it)
{
    for (unsigned i = 0; i < it->count; i++) {
        printf("map %s ", it->name);
        print_bytes(pair(it, i), it->key);
        printf("=");
        print_bytes(pair(it, i) + it->key, it->value);
        puts("");
    }
}

int main(void)
{
    static char digits[8194];
    for (int job = 0; scanf("%u %8193s", &host_cpu, digits) == 2; job++) {
        unsigned size = strlen(digits) / 2;
        __u8 *context = malloc(size + 1);
        for (unsigned i = 0; i < size; i++)
            sscanf(digits + 2 * i, "%2hhx", &context[i]);
        printf("job %d cpu %u r0=%llu\n", job, host_cpu, (__u64)(__u32)ENTRY(context));
        free(context);
    }
    for (unsigned t = 0; t < count; t++)
        (tables[t].type == BPF_MAP_TYPE_HASH ? print_map : print_array)(&tables[t]);
    host_variables();
    return 0;
}
