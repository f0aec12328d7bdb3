struct pair {
	int first;
	int second;
};

int sum(struct pair *pair, const char *name);

#define TWICE(x) ((x) + missing(x))
