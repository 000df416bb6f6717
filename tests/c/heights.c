/* Every size of 16 bits, from the table and worked out, against document 01's words; it prints how many agree. */
#include <stdint.h>
#include <stdio.h>

uint32_t leaf_height(uint16_t size);
uint32_t leaf_worked_out(uint16_t size);
uint32_t leaf_align(uint16_t size, uint16_t step);

/* "0 to 31: 8; 32 to 127: 16; 128 to 511: 32; above: 64" */
static uint16_t step(uint32_t size) { return size <= 31 ? 8 : size <= 127 ? 16 : size <= 511 ? 32 : 64; }

/* the first multiple of the step that is not below the size, by adding up */
static uint32_t due(uint32_t size) {
    uint32_t height = 0;
    while (height < size) height += step(size);
    return height;
}

int main(void) {
    unsigned agree = 0;
    for (uint32_t size = 0; size <= 65535; size++)
        agree += leaf_height(size) == due(size) && leaf_worked_out(size) == due(size) && leaf_align(size, step(size)) == due(size);
    printf("%u sizes agree\n", agree);
    return 0;
}
