#include <stdio.h>

int main(void) {
    printf("%d ü %s\n", "x", 5);
    puts("a") return 0;
}int last = other;