// A lock in a map's value, and one among variables.
#include "own.h"

struct bpf_spin_lock {
	u32 val;
};

struct element {
	struct bpf_spin_lock lock;
	u32 count;
};

struct {
	NUMBER(type, ARRAY);
	NUMBER(max_entries, 1);
	TYPE(key, u32);
	TYPE(value, struct element);
} elements SEC(".maps");

struct bpf_spin_lock lock SEC(".data.locked");
u32 locked_count SEC(".data.locked") = 40;

SEC("tc")
int count_in_map(struct __sk_buff *packet)
{
	u32 key = 0, count;
	struct element *element = map_lookup_elem(&elements, &key);

	if (!element)
		return 1;
	spin_lock(&element->lock);
	element->count += 7;
	count = element->count;
	spin_unlock(&element->lock);
	return count;
}

SEC("tc")
int count_in_data(struct __sk_buff *packet)
{
	u32 count;

	spin_lock(&lock);
	locked_count += 2;
	count = locked_count;
	spin_unlock(&lock);
	return count;
}

char own_license[] SEC("license") = "GPL";
