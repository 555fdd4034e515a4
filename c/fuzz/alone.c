/* The fuzz target without libFuzzer: it is given each of the files named. For trying wrong headers (c/broken). */
#include <stdint.h>
#include <stdio.h>

#define MOST 65536

int LLVMFuzzerTestOneInput(const uint8_t *data, size_t size);
size_t LLVMFuzzerMutate(uint8_t *data, size_t size, size_t max_size);

/* Of libFuzzer; nothing is mutated here. */
size_t LLVMFuzzerMutate(uint8_t *data, size_t size, size_t max_size) {
    (void)data, (void)max_size;
    return size;
}

int main(int words, char **word) {
    static uint8_t data[MOST];
    for (int i = 1; i < words; i++) {
        FILE *file = fopen(word[i], "rb");
        if (!file)
            return 2;
        size_t size = fread(data, 1, sizeof data, file);
        fclose(file);
        LLVMFuzzerTestOneInput(data, size);
    }
    return words > 1 ? 0 : 2;
}
