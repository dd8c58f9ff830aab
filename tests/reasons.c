/* Prints each number that it is handed and the words of include/velichundam.h for it, parted by a tab. In C and in C++. */
#include <stdio.h>
#include <stdlib.h>

#include "velichundam.h"

int main(int count, char **words)
{
    for (int k = 1; k < count; k++)
        printf("%s\t%s\n", words[k], velichundam_why(strtoll(words[k], NULL, 10)));
    return 0;
}
