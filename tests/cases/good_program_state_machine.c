enum state { START, WORD, END };
static const char *const names[] = { "start", "word", "end", };
typedef enum state (*Step)(int c);
static enum state start(int c) { return c == ' ' ? START : c ? WORD : END; }
static enum state word(int c) { return (c == ' ' || c == '\t') ? START : (c != '\0') ? WORD : END; }
static Step steps[END] = { start, word };
int run(const char *s, void (*done)(const char *name, int at))
{
    enum state now = START;
    int at;
    for (at = 0; now != END; at++) {
        switch (now) {
        case START:
        case WORD:
            now = (*steps[now])(s[at]);
            break;
        default:
            goto out;
        }
        if (done) (*done)(names[now], at);
    }
out:
    return at;
}
