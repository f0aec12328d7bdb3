#include <stdio.h>
#include <stdlib.h>

static char *line_of(FILE *file)
{
	char *text = malloc(80);
	if (fgets(text, 80, file) == NULL)
		return NULL;
	return text;
}

int main(void)
{
	FILE *file = fopen("x", "r");
	char *text = line_of(file);
	free(text);
	return text[0];
}
