/* Says of a script whether it always ends, and which files it names: example SCRIPT
 * The status is that of the library, and 3 for invalid arguments or a file that can't be read. */
#include <sedck.h>
#include <stdio.h>
#include <stdlib.h>

int main(int count, char **words)
{
    /* One byte more than a script may have. */
    static char script[1048577];
    struct sedck_answer answer;
    size_t length, needed;
    FILE *file = count == 2 ? fopen(words[1], "rb") : NULL;

    if (file == NULL)
        return 3;
    length = fread(script, 1, sizeof script, file);
    if (ferror(file))
        return 3;
    fclose(file);

    unsigned status = sedck_judge(script, length, &answer, NULL, 0, &needed);
    if (status == SEDCK_ACCEPTED) {
        char *files = malloc(needed);
        status = files ? sedck_judge(script, length, &answer, files, needed, &needed) : SEDCK_MEMORY;
        if (status == SEDCK_ACCEPTED) {
            puts("accepted");
            if (answer.bounded)
                printf("bound %llu %llu %llu\n", (unsigned long long)answer.per_byte, (unsigned long long)answer.per_line,
                       (unsigned long long)answer.fixed);
            fwrite(files, 1, needed, stdout);
        }
        free(files);
    }
    if (status == SEDCK_REJECTED)
        puts("a loop may never end");
    if (status == SEDCK_REFUSED)
        printf("fault %u at %zu\n", (unsigned)answer.fault, answer.place);
    if (status == SEDCK_MEMORY)
        puts("out of memory");
    return (int)status;
}
