/* Reads a flattened device tree from standard input and ends with 0 where libfdt's own checker takes it. */
#include <libfdt.h>
#include <stdio.h>

static char tree[4 << 20];

int main(void)
{
	size_t size = fread(tree, 1, sizeof tree, stdin);
	int fault = fdt_check_full(tree, size);

	if (fault)
		puts(fdt_strerror(fault));
	return fault != 0;
}
