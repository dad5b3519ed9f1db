// Counts packets and bytes by flow: a card's packets pass, and each TCP or UDP packet of IPv4 is counted at its addresses and
// ports. Each access to a packet comes after a comparison with its end, as Linux's verifier wants it. flows.run is made of it by
// tools/from-elf, and docs/guide/from-c.md gives it a capture.
#include <linux/bpf.h>
#include <linux/if_ether.h>
#include <linux/in.h>
#include <linux/ip.h>
#include <bpf/bpf_endian.h>
#include <bpf/bpf_helpers.h>

// Addresses and ports as they lie in the packet, the greater byte first.
struct flow {
    __u32 from;
    __u32 to;
    __u16 source;
    __u16 dest;
    __u32 protocol;
};

struct count {
    __u64 packets;
    __u64 bytes;
};

struct {
    __uint(type, BPF_MAP_TYPE_HASH);
    __uint(max_entries, 4096);
    __type(key, struct flow);
    __type(value, struct count);
} flows SEC(".maps");

SEC("xdp")
int count(struct xdp_md *ctx)
{
    void *data = (void *)(long)ctx->data, *end = (void *)(long)ctx->data_end;
    struct ethhdr *ethernet = data;
    struct iphdr *ip = data + sizeof(*ethernet);
    struct flow flow = {};
    struct count none = {}, *it;
    __u16 *ports;

    if ((void *)(ip + 1) > end || ethernet->h_proto != bpf_htons(ETH_P_IP))
        return XDP_PASS;
    if (ip->protocol != IPPROTO_TCP && ip->protocol != IPPROTO_UDP)
        return XDP_PASS;
    // A fragment that isn't the first has no ports.
    if (ip->version != 4 || ip->ihl < 5 || ip->frag_off & bpf_htons(0x1fff))
        return XDP_PASS;
    ports = (void *)ip + ip->ihl * 4;
    if ((void *)(ports + 2) > end)
        return XDP_PASS;
    flow.from = ip->saddr;
    flow.to = ip->daddr;
    flow.source = ports[0];
    flow.dest = ports[1];
    flow.protocol = ip->protocol;
    it = bpf_map_lookup_elem(&flows, &flow);
    if (!it) {
        bpf_map_update_elem(&flows, &flow, &none, BPF_NOEXIST);
        it = bpf_map_lookup_elem(&flows, &flow);
        if (!it)
            return XDP_PASS;
    }
    __sync_fetch_and_add(&it->packets, 1);
    __sync_fetch_and_add(&it->bytes, end - data);
    return XDP_PASS;
}

// ; never fault
