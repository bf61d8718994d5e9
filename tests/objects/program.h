// A program of readings.c with a number of its own. ATTRIBUTES says its section.
__attribute__((ATTRIBUTES)) int PROGRAM(INDEX)(struct task_struct *task)
{
	u32 key = task->tgid;

	if (!lookup(&counts, &key))
		return INDEX;
	return add(&key, task->pid);
}
#undef ATTRIBUTES
#undef INDEX
