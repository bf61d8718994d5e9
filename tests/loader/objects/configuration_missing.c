// A value that has to be known, and that no configuration has.
#include "own.h"

extern u32 CONFIG_NO_SUCH_OPTION IN(".kconfig");

SEC("tc")
int read_configuration(struct __sk_buff *packet)
{
	return CONFIG_NO_SUCH_OPTION;
}

char own_license[] SEC("license") = "GPL";
