/* Asks for its input as a block, and then as a line, a number and a character, and says what came. */
#include <errno.h>
#include <stdio.h>
#include <string.h>

int main(void)
{
    char block[16];
    char *line = 0;
    size_t room = 0;
    int number = 0;
    size_t taken = fread(block, 1, sizeof block, stdin);
    printf("fread: %lu, %s\n", (unsigned long)taken, ferror(stdin) ? strerror(errno) : "no error");
    clearerr(stdin);
    long length = getline(&line, &room, stdin);
    printf("getline: %ld\n", length);
    int found = scanf("%d", &number);
    printf("scanf: %d, %d\n", found, number);
    printf("getchar: %c\n", getchar());
    return 0;
}
