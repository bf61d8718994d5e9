// Fields by loads, stores and what is asked of them, in flavors of the kernel's structures, with bit fields.
#include "words.h"

struct mm_struct___x {
	u64 start_code;
	u64 no_such;
} RELOCATED;

struct task_struct___new {
	u32 __state;
	int pid;
	struct mm_struct___x *mm;
	char comm[16];
	struct task_struct___new *real_parent;
	u32 no_such;
	u64 start_time;
} RELOCATED;

struct task_struct___old {
	long state;
} RELOCATED;

struct sk_buff {
	u8 pkt_type : 3;
	u8 cloned : 1;
	u32 len;
	u8 ip_summed : 2;
	u16 vlan_tci;
	u32 hash;
	u8 *head;
} RELOCATED;

struct tcp_sock___v {
	u8 repair : 1;
	u32 snd_cwnd;
	struct {
		u32 snd_una;
	} no_such;
} RELOCATED;

struct iphdr {
	u8 ihl : 4;
	u8 version : 4;
	u8 tos;
	u32 saddr;
} RELOCATED;

#define ALL(field)                \
	do {                      \
		OFFSET(field);    \
		SIZE(field);      \
		EXISTS(field);    \
		IS_SIGNED(field); \
		SHIFTS(field);    \
	} while (0)

SEC("tp_btf/task_newtask")
int loads(u64 *context)
{
	struct task_struct___new *task = (void *)context[0];
	long x = task->pid;

	x += task->__state;
	x += task->mm->start_code;
	x += task->comm[3];
	x += task->real_parent->pid;
	x += task->start_time;
	x += (u64)&task->comm;
	return x;
}

SEC("raw_tp/sys_enter")
int flavors(u64 *context)
{
	struct task_struct___new *task = (void *)context[0];
	struct task_struct___old *old = (void *)task;
	long x = 0;

	if (FIELD(task->__state, 2))
		x += task->__state;
	else
		x += old->state;
	if (FIELD(task->no_such, 2))
		x += task->no_such;
	EXISTS(task->no_such);
	SIZE(task->comm);
	OFFSET(task->comm[7]);
	OFFSET(task->comm);
	SIZE(task->real_parent);
	OFFSET(task->mm);
	OFFSET(task->no_such);
	x += task->mm->no_such;
	return x;
}

SEC("raw_tp/sys_enter")
int bits(u64 *context)
{
	struct sk_buff *packet = (void *)context[0];
	struct tcp_sock___v *sock = (void *)packet;
	struct iphdr *header = (void *)packet;
	long x = 0;

	ALL(packet->pkt_type);
	ALL(packet->cloned);
	ALL(packet->ip_summed);
	ALL(packet->len);
	ALL(packet->vlan_tci);
	ALL(sock->repair);
	ALL(header->ihl);
	ALL(header->version);
	ALL(header->saddr);
	EXISTS(sock->no_such.snd_una);
	OFFSET(sock->snd_cwnd);
	x += packet->len + packet->hash + packet->vlan_tci;
	x += (long)packet->head;
	return x;
}

SEC("raw_tp/sys_enter")
int stores(u64 *context)
{
	struct sk_buff *packet = (void *)context[0];

	packet->len = 7;
	packet->hash = context[1];
	packet->vlan_tci = 5;
	packet->head = (void *)context[2];
	return 0;
}
