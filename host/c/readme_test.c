/* What README.md's C leaves to the server, and a run of it on a role file. */
#include <monitor.h>

#include <stdio.h>

void send_bytes(const uint8_t *bytes, size_t length);
uint64_t serve(const uint8_t *file, size_t file_len);

static size_t sent;

void send_bytes(const uint8_t *bytes, size_t length)
{
    sent += bytes == NULL ? 0 : length;
}

int main(int count, char **arguments)
{
    static uint8_t file[MONITOR_FILE_BYTES + 1];
    FILE *from = count == 2 ? fopen(arguments[1], "rb") : NULL;
    if (from == NULL) {
        return 2;
    }
    size_t length = fread(file, 1, sizeof file, from);
    fclose(from);
    uint64_t answer = serve(file, length);
    printf("README's server: %s, %zu bytes sent; of no file: %s\n",
           monitor_words(answer), sent, monitor_words(serve(file, 0)));
    return answer == 0 && sent == MONITOR_CARD_BYTES && serve(file, 0) == 1
               ? 0
               : 1;
}
