int main(void) {
    char *s = "😀 é"; int unused;
    return s;
}
