// Maps whose number of entries a loader completes: a ring buffer of 5,000 bytes, and an array of events that states none.
#include "own.h"

#define RING_SIZE 1

struct {
	NUMBER(type, RINGBUF);
	NUMBER(max_entries, 5000);
} ring SEC(".maps");

struct {
	NUMBER(type, PERF_EVENT_ARRAY);
	NUMBER(key_size, 4);
	NUMBER(value_size, 4);
} events SEC(".maps");

SEC("tc")
int ask_size(struct __sk_buff *packet)
{
	return ringbuf_query(&ring, RING_SIZE);
}

char own_license[] SEC("license") = "GPL";
