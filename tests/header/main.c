/* The inline functions of the header and the stack that it names. With the argument "words" it prints instead what each reply number says. */
#include "cases.h"

#include <stdio.h>
#include <string.h>

int main(int count, char **arguments) {
    if (count == 2 && strcmp(arguments[1], "words") == 0) {
        for (unsigned number = 0; number <= 16; number++) printf("%u\t%s\n", number, mortarleaf_words(number));
        return 0;
    }
    begin_case("mortarleaf_words", "numbers that no reply has");
    same("17", strcmp(mortarleaf_words(17), "no reply has this number"), 0);
    same("the largest", strcmp(mortarleaf_words(UINT32_MAX), "no reply has this number"), 0);
    test_sizes();
    test_stack();
    print_counts();
    return failures() != 0;
}
