/* The program with its exit status: 0, or 1 if the text could not be written. */
#include <stdint.h>

int32_t gz_program(void);

int main(void) {
    return gz_program();
}
