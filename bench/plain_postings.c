/* The writes and syncs of so many postings, in plain C: a body behind a closed gate, a sync, the gate, a sync. It reads no
   script and decides nothing. Timed beside `life run`; nothing here is proved. usage: plain_postings COUNT FILE */
#include <fcntl.h>
#include <stdio.h>
#include <stdlib.h>
#include <unistd.h>

enum { HEAD = 18, RECORD = 65 };

static void put(int file, const char *bytes, size_t count, off_t at) {
    if (pwrite(file, bytes, count, at) != (ssize_t)count || fdatasync(file) != 0) {
        perror("plain_postings");
        exit(1);
    }
}

int main(int words, char **word) {
    static const char head[HEAD] = "LIFEJRNL";
    static const char open_gate[1] = {1};
    char record[RECORD] = {0};
    int file = words == 3 ? open(word[2], O_RDWR | O_CREAT | O_TRUNC, 0666) : -1;
    if (file < 0) {
        perror("plain_postings");
        return 2;
    }
    put(file, head, sizeof head, 0);
    for (long number = 0, count = atol(word[1]); number < count; number++) {
        off_t gate = HEAD - 1 + (off_t)RECORD * number;
        put(file, record, sizeof record, gate + 1);
        put(file, open_gate, sizeof open_gate, gate);
    }
    return 0;
}
