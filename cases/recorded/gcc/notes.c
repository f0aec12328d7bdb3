#include "near.h"

static long sum_of(struct pair p)
{
	return p->first + p.second;
}

int main(void)
{
	struct pair p = { 1, 2, 3 };
	int größe = "ü" + TWICE(4);
	if (p.first)
		p.first = sum(&p);
		p.second = größe
	return sum_of(&p);
}
