/* Prints the layout of all that crosses as this compiler has it: a type's size and alignment, a field's offset and size. */
#include <stdio.h>

#include "nibl.h"

#define NIBL_TYPE(type, size, align) printf("%s %zu %zu\n", #type, sizeof(type), _Alignof(type));
#define NIBL_FIELD(type, field, offset, size)                                                                          \
    printf("%s.%s %zu %zu\n", #type, #field, offsetof(type, field), sizeof(((type *)0)->field));

int main(void) {
#include "nibl.layout"
    return 0;
}
