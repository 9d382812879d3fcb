// A plain copy that prints hexadecimal, to measure against: it reads standard input whole, and prints two digits a byte, by a
// table of pairs. `hexcopy -x` reads hexadecimal text and prints its digits again.
#include <stdint.h>
#include <stdio.h>
#include <stdlib.h>
#include <string.h>
#include <unistd.h>

static void write_all(const char *from, size_t length) {
    while (length) {
        ssize_t taken = write(1, from, length);
        if (taken <= 0) exit(4);
        from += taken;
        length -= (size_t)taken;
    }
}

int main(int argc, char **argv) {
    static char pairs[256][2];
    static uint8_t digits[256];
    static char text[1 << 16];
    size_t room = 1 << 16, length = 0;
    uint8_t *bytes = malloc(room);
    for (int n = 0; n < 256; n++) {
        pairs[n][0] = "0123456789abcdef"[n >> 4];
        pairs[n][1] = "0123456789abcdef"[n & 15];
    }
    if (!bytes) return 1;
    for (;;) {
        if (length == room) {
            bytes = realloc(bytes, room *= 2);
            if (!bytes) return 1;
        }
        ssize_t came = read(0, bytes + length, room - length);
        if (came < 0) return 3;
        if (came == 0) break;
        length += (size_t)came;
    }
    if (argc > 1 && !strcmp(argv[1], "-x")) {
        memset(digits, 255, sizeof digits);
        for (int n = 0; n < 16; n++) {
            digits[(uint8_t)"0123456789abcdef"[n]] = (uint8_t)n;
            digits[(uint8_t)"0123456789ABCDEF"[n]] = (uint8_t)n;
        }
        while (length && strchr(" \t\r\n", bytes[length - 1])) length--;
        if (length % 2) return 14;
        for (size_t at = 0; at < length; at += 2) {
            uint8_t high = digits[bytes[at]], low = digits[bytes[at + 1]];
            if ((high | low) > 15) return 14;
            bytes[at / 2] = (uint8_t)(high << 4 | low);
        }
        length /= 2;
    }
    for (size_t at = 0; at < length;) {
        size_t piece = length - at < sizeof text / 2 ? length - at : sizeof text / 2;
        for (size_t n = 0; n < piece; n++) memcpy(text + 2 * n, pairs[bytes[at + n]], 2);
        write_all(text, 2 * piece);
        at += piece;
    }
    write_all("\n", 1);
    return 0;
}
