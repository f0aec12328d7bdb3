int piece(int *p) {
    return *p; // é
}
