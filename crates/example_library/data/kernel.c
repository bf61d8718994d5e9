// What a kernel's types would say of what watch.c asks for: the process of a task behind another field, and no field `gone`.

struct task_struct {
	long state;
	int tgid;
};

struct task_struct init;

void bpf_rcu_read_lock(void)
{
}
