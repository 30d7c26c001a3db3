// The text on standard input, line by line through the account of season.h.
#include <stdio.h>
#include <unistd.h>

// The first 360,448 bytes are taken, which decide the report: tree 7's leap year of kind 04 with a
// ceiling has 360,246, and a line after it is refused by 67 more.
enum { MOST_BYTES = 360448 };

static uint8_t text[MOST_BYTES];

// The bytes read, or -1.
static ssize_t fill(void)
{
    size_t n = 0;
    while (n < MOST_BYTES) {
        ssize_t more = read(STDIN_FILENO, text + n, MOST_BYTES - n);
        if (more < 0)
            return -1;
        if (more == 0)
            break;
        n += (size_t)more;
    }
    return (ssize_t)n;
}

// Whether the text is a season; else its refusal is printed.
static int is_season(struct season *s, size_t n)
{
    int lines, row = feed_text(s, text, n, &lines);
    if (!row && s->phase == CLOSED)
        return 1;
    printf("refused %d line %d\n", row ? row : 11, row ? lines : lines + 1);
    return 0;
}
