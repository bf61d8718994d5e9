/* Variables that another process may map into its memory, by the object's types. */
#include "loader.h"
#include <linux/btf.h>

/* How many bytes a type has behind its head. */
static size_t rest_of(const struct btf_type *type)
{
	size_t count = BTF_INFO_VLEN(type->info);

	switch (BTF_INFO_KIND(type->info)) {
	case BTF_KIND_INT:
	case BTF_KIND_VAR:
	case BTF_KIND_DECL_TAG:
		return 4;
	case BTF_KIND_ARRAY:
		return sizeof(struct btf_array);
	case BTF_KIND_STRUCT:
	case BTF_KIND_UNION:
	case BTF_KIND_DATASEC:
	case BTF_KIND_ENUM64:
		return 12 * count;
	case BTF_KIND_ENUM:
	case BTF_KIND_FUNC_PROTO:
		return 8 * count;
	default:
		return 0;
	}
}

/* The type of an id, from 1 on, in the types that the library has written for the kernel. */
static const struct btf_type *type_at(struct bytes types, uint32_t id)
{
	const struct btf_header *head = (const void *)types.at;
	const uint8_t *at = types.at + head->hdr_len + head->type_off;

	while (--id)
		at += sizeof(struct btf_type) + rest_of((const void *)at);
	return (const void *)at;
}

/*
 * Whether a DATASEC has a variable that isn't static. The map of such a section is made so that it can be mapped into memory
 * (BPF_F_MMAPABLE), as libbpf makes it. 0 is no type.
 */
int has_shared_variable(const struct loading *of, uint32_t section_type)
{
	const struct btf_type *section, *variable;
	const struct btf_var_secinfo *entries;

	if (!section_type || !of->types.len)
		return 0;
	section = type_at(of->types, section_type);
	entries = (const void *)(section + 1);
	if (BTF_INFO_KIND(section->info) != BTF_KIND_DATASEC)
		return 0;
	for (size_t at = 0; at < BTF_INFO_VLEN(section->info); at++) {
		variable = type_at(of->types, entries[at].type);
		if (BTF_INFO_KIND(variable->info) == BTF_KIND_VAR &&
		    ((const struct btf_var *)(variable + 1))->linkage != BTF_VAR_STATIC)
			return 1;
	}
	return 0;
}
