// Searches a text for a pattern by PCRE2, as often as the last argument says: (i)nterpreted or (j)it, PATTERN NOCASE(0/1) TEXT COUNT.
#define PCRE2_CODE_UNIT_WIDTH 8
#include <pcre2.h>
#include <stdio.h>
#include <stdlib.h>
#include <string.h>

int main(int count, char **words) {
    int error, found = 0;
    size_t at;
    if (count < 6) return 2;
    pcre2_code *code = pcre2_compile((PCRE2_SPTR)words[2], PCRE2_ZERO_TERMINATED, words[3][0] == '1' ? PCRE2_CASELESS : 0, &error, &at, NULL);
    pcre2_match_data *data = pcre2_match_data_create_from_pattern(code, NULL);
    if (words[1][0] == 'j') pcre2_jit_compile(code, PCRE2_JIT_COMPLETE);
    size_t length = strlen(words[4]);
    for (long i = atol(words[5]); i > 0; i--) found += pcre2_match(code, (PCRE2_SPTR)words[4], length, 0, 0, data, NULL) > 0;
    printf("%d\n", found);
}
