/* The entry of target.c without a fuzzer: the files that it is given, then for some seconds, or as often as `1000x` says, changed and joined copies of them and
 * random bytes. */
#include <signal.h>
#include <stdint.h>
#include <stdio.h>
#include <stdlib.h>
#include <string.h>
#include <time.h>

enum { MOST_FILES = 64, MOST_BYTES = 4096 };

int LLVMFuzzerTestOneInput(const uint8_t *data, size_t size);

static struct {
    uint8_t bytes[MOST_BYTES];
    size_t length;
} files[MOST_FILES];
static size_t file_count;
static uint8_t made[MOST_BYTES];
static uint64_t state;

static size_t below(size_t most)
{
    state ^= state << 13;
    state ^= state >> 7;
    state ^= state << 17;
    return (size_t)((state >> 11) % most);
}

static void read_file(const char *name)
{
    FILE *file = fopen(name, "rb");
    if (file == NULL || file_count == MOST_FILES) {
        fprintf(stderr, "cannot read %s\n", name);
        exit(2);
    }
    files[file_count].length = fread(files[file_count].bytes, 1, MOST_BYTES, file);
    fclose(file);
    LLVMFuzzerTestOneInput(files[file_count].bytes, files[file_count].length);
    file_count++;
}

/* One file, or the start of one and the end of another. */
static size_t join(void)
{
    size_t one = below(file_count), two = below(file_count);
    size_t first = below(files[one].length + 1), rest = below(files[two].length + 1);
    if (below(2) == 0) {
        memcpy(made, files[one].bytes, files[one].length);
        return files[one].length;
    }
    rest = rest < MOST_BYTES - first ? rest : MOST_BYTES - first;
    memcpy(made, files[one].bytes, first);
    memcpy(made + first, files[two].bytes + files[two].length - rest, rest);
    return first + rest;
}

static size_t random_bytes(void)
{
    size_t length = below(200), at;
    for (at = 0; at < length; at++) {
        made[at] = (uint8_t)below(256);
    }
    return length;
}

static size_t make(void)
{
    size_t length = below(8) == 0 ? random_bytes() : join(), changes = below(6);
    for (; changes > 0 && length > 0; changes--) {
        size_t at = below(length);
        made[at] = (uint8_t)(below(2) == 0 ? below(256) : made[at] ^ (1u << below(8)));
    }
    return length;
}

/* So that an input that fails is at hand. */
static void keep(size_t length)
{
    FILE *file = fopen("last-input", "wb");
    if (file != NULL) {
        fwrite(made, 1, length, file);
        fclose(file);
    }
}

/* A check that fails ends this with 1, without the shell's own word on it. */
static void on_abort(int signal_number)
{
    (void)signal_number;
    _Exit(1);
}

/* So many seconds, or with an x behind it so many inputs. How many they were. */
static unsigned long run(const char *most)
{
    char *end;
    unsigned long asked = strtoul(most, &end, 10), runs = 0;
    time_t until = time(NULL) + (time_t)asked;
    while (*end == 'x' ? runs < asked : time(NULL) < until) {
        size_t length = make();
        keep(length);
        LLVMFuzzerTestOneInput(made, length);
        runs++;
    }
    return runs;
}

int main(int count, char **words)
{
    int word;
    unsigned long runs;
    if (count < 4) {
        fprintf(stderr, "usage: driver SECONDS|RUNSx SEED FILE..\n");
        return 2;
    }
    signal(SIGABRT, on_abort);
    state = 0x9E3779B97F4A7C15u ^ strtoull(words[2], NULL, 10);
    for (word = 3; word < count; word++) {
        read_file(words[word]);
    }
    runs = run(words[1]);
    printf("%lu inputs beside %lu files, seed %s: all kept\n", runs, (unsigned long)file_count, words[2]);
    return 0;
}
