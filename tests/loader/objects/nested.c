// A map of maps that begins with two maps; its places 0 and 3 are empty.
#include "own.h"

struct inner {
	NUMBER(type, ARRAY);
	NUMBER(max_entries, 1);
	TYPE(key, u32);
	TYPE(value, u32);
} first SEC(".maps"), second SEC(".maps");

struct {
	NUMBER(type, ARRAY_OF_MAPS);
	NUMBER(max_entries, 4);
	TYPE(key, u32);
	struct inner *values[];
} outer SEC(".maps") = {
	.values = { [1] = &first, [2] = &second },
};

// What the map at a place holds at its key 0; 100 where no map is there.
static NOINLINE u32 value_at(u32 place)
{
	u32 key = 0, *value;
	void *map = map_lookup_elem(&outer, &place);

	if (!map)
		return 100;
	value = map_lookup_elem(map, &key);
	return value ? *value : 200;
}

SEC("tc")
int look_up(struct __sk_buff *packet)
{
	u32 key = 0, value = 3;

	map_update_elem(&first, &key, &value, 0);
	value = 4;
	map_update_elem(&second, &key, &value, 0);
	return value_at(0) + value_at(1) + 10 * value_at(2) + value_at(3);
}

char own_license[] SEC("license") = "GPL";
