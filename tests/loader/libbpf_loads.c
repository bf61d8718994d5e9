// libbpf_loads FILE: opens, loads and closes an object by libbpf, and prints how many programs are loaded. With recording.c the
// kernel isn't asked.
#include <bpf/libbpf.h>
#include <err.h>
#include <stdio.h>

int main(int count, char **word)
{
	struct bpf_object *object = count == 2 ? bpf_object__open_file(word[1], NULL) : NULL;
	struct bpf_program *program;
	int loaded = 0;

	if (!object)
		err(2, "not opened");
	if (bpf_object__load(object))
		err(1, "not loaded");
	bpf_object__for_each_program(program, object)
		loaded += bpf_program__fd(program) >= 0;
	printf("programs %d\n", loaded);
	bpf_object__close(object);
	return 0;
}
