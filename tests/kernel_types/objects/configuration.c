// Externs of the kernel's configuration, of each type.
#include "own.h"
enum libbpf_tristate { TRI_NO = 0, TRI_YES = 1, TRI_MODULE = 2 };
extern int LINUX_KERNEL_VERSION SEC(".kconfig") WEAK;
extern _Bool CONFIG_B SEC(".kconfig") WEAK;
extern _Bool CONFIG_A SEC(".kconfig") WEAK;
extern char CONFIG_CHAR SEC(".kconfig") WEAK;
extern enum libbpf_tristate CONFIG_TRISTATE SEC(".kconfig") WEAK;
extern unsigned short CONFIG_SHORT SEC(".kconfig") WEAK;
extern u64 CONFIG_LONG SEC(".kconfig") WEAK;
extern const u64 CONFIG_HZ SEC(".kconfig") WEAK;
extern char CONFIG_TEXT[7] SEC(".kconfig") WEAK;
extern char CONFIG_NAME[3] SEC(".kconfig") WEAK;
char own_license[] SEC("license") = "GPL";
SEC("socket") int uses(void *c) {
	return LINUX_KERNEL_VERSION + CONFIG_B + CONFIG_A + CONFIG_CHAR + CONFIG_TRISTATE + CONFIG_SHORT + CONFIG_LONG + CONFIG_HZ + CONFIG_TEXT[1] + CONFIG_NAME[1];
}
