#include <stdlib.h>

int *make(int n) {
    int *p = malloc(n * sizeof(int));
    if (n > 3) {
        free(p);
    }
    return p;
}

int main(void) {
    int *q = make(5);
    q[0] = 1;
    free(q);
}
