#define BOTH(f, x) (f(x) + strlen(x))

int lengths(const char *text, int (*of)(const char *))
{
	int count = BOTH(of, text);
	int *place = &count;
	if (count = 5 && text)
		place = count;
	for (int i = 0; i < count; i++);
		printf("%d%s", place, i);
	return count
		+ lenght;
}

int lenghts(void) { return lengths(0); }
