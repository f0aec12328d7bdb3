#include <string.h>

int count_words(const char *text) {
    int length = strlen(text);
    return seperate(text, lenght);
}
