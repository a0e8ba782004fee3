/* Calls the library as a program in C does, without asking for memory itself: library judge|rank SCRIPT, library check SCRIPT CERT, library null
 * What is answered is written as one line of numbers, and behind it the text that was put into the room. The status is that of the library;
 * `null` calls each function with null pointers, and ends with 0 where each answers as for texts without a byte. */
#include <fcntl.h>
#include <sedck.h>
#include <stdio.h>
#include <string.h>
#include <unistd.h>

static unsigned char script[1 << 21], certificate[1 << 21], room[1 << 21];

static size_t read_file(const char *name, unsigned char *into, size_t size)
{
    size_t length = 0;
    ssize_t count;
    int file = open(name, O_RDONLY);

    if (file < 0)
        _exit(99);
    while (length < size && (count = read(file, into + length, size - length)) > 0)
        length += (size_t)count;
    close(file);
    return length;
}

static void write_all(const void *bytes, size_t length)
{
    if (write(1, bytes, length) != (ssize_t)length)
        _exit(98);
}

static int null(void)
{
    struct sedck_answer answer;
    size_t needed = 7;
    /* The empty script always ends, with the lists `read 0` and `write 0`. */
    int judged = sedck_judge(NULL, 0, &answer, NULL, 0, &needed) == SEDCK_ACCEPTED && answer.bounded && needed == strlen("read 0\nwrite 0\n");
    int unasked = sedck_judge(NULL, 0, NULL, NULL, 0, NULL) == SEDCK_ACCEPTED && sedck_rank(NULL, 0, NULL, 0, NULL) == SEDCK_ACCEPTED;
    /* No bytes are no certificate: the first line is wrong. */
    int checked = sedck_check(NULL, 0, NULL, 0, &answer) == SEDCK_REFUSED && answer.text == 2 && answer.fault == 1 && answer.place == 1;
    int unanswered = sedck_check("p", 1, NULL, 0, NULL) == SEDCK_REFUSED;

    return judged && unasked && checked && unanswered ? 0 : 1;
}

int main(int count, char **words)
{
    struct sedck_answer answer;
    size_t length, needed = 0;
    unsigned status;
    char line[200];

    memset(&answer, 0x55, sizeof answer);
    if (count == 2 && !strcmp(words[1], "null"))
        return null();
    if (count < 3)
        return 97;
    length = read_file(words[2], script, sizeof script);
    if (!strcmp(words[1], "check"))
        status = sedck_check(script, length, certificate, read_file(words[3], certificate, sizeof certificate), &answer);
    else if (!strcmp(words[1], "judge"))
        status = sedck_judge(script, length, &answer, room, sizeof room, &needed);
    else {
        memset(&answer, 0, sizeof answer);
        status = sedck_rank(script, length, room, sizeof room, &needed);
    }
    snprintf(line, sizeof line, "%u %d %llu %llu %llu %zu %zu %u %u %zu\n", status, answer.bounded, (unsigned long long)answer.per_byte,
             (unsigned long long)answer.per_line, (unsigned long long)answer.fixed, answer.reads, answer.writes, (unsigned)answer.text,
             (unsigned)answer.fault, answer.place);
    write_all(line, strlen(line));
    if (status <= SEDCK_REJECTED)
        write_all(room, needed);
    return (int)status;
}
