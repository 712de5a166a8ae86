/* Looks for a pattern in two words; exits with 7 where it is in the first alone. */
#include <regex.h>

int main(void)
{
    regex_t pattern;
    if (regcomp(&pattern, "^a(b|c)*d$", REG_EXTENDED))
        return 1;
    int first = regexec(&pattern, "abcbd", 0, 0, 0);
    int second = regexec(&pattern, "abxd", 0, 0, 0);
    regfree(&pattern);
    return first == 0 && second == REG_NOMATCH ? 7 : 2;
}
