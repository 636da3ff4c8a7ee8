/* The program that writes a tidy copy, with its exit status: 0, or 1 if the sheet was refused or the copy could not be written. */
#include <stdint.h>

int32_t gz_tidy_program(void);

int main(void) {
    return gz_tidy_program();
}
