/* Writes a recording, which the program `recording` judges: a signal list, and a step for each time that data were marshalled.
 *
 *     recorder FILE FORM LIST [CLOCK STORE BEFORE AFTER]..    makes one from files, a step for each four words
 */
#include <stdint.h>
#include <stdio.h>
#include <stdlib.h>

struct area {
    const uint8_t *octets;
    uint32_t length;
};

static void put_number(FILE *file, uint32_t n)
{
    for (int shift = 24; shift >= 0; shift -= 8)
        fputc(n >> shift & 255, file);
}

static void put_area(FILE *file, struct area area)
{
    put_number(file, area.length);
    fwrite(area.octets, 1, area.length, file);
}

/* Begins a recording in a file that is open for octets; form 1 or 2 is that of the list. */
static void recording_start(FILE *file, uint8_t form, struct area list)
{
    fwrite("DUSTREC\1", 1, 8, file);
    fputc(form, file);
    put_area(file, list);
}

/* Adds a step: the data before and after marshalling, with the store and the clock that they were marshalled by. */
static void recording_step(FILE *file, uint32_t clock, struct area store, struct area before, struct area after)
{
    put_number(file, clock);
    put_area(file, store);
    put_area(file, before);
    put_area(file, after);
}

static void fail(const char *path)
{
    perror(path);
    exit(1);
}

/* An area is held up to 65,536 octets; one more shows a file that is longer, and is refused where it is judged. */
static struct area read_file(const char *path, uint8_t *room)
{
    FILE *file = fopen(path, "rb");
    if (!file)
        fail(path);
    struct area area = {room, (uint32_t)fread(room, 1, 65537, file)};
    fclose(file);
    return area;
}

int main(int count, char **words)
{
    static uint8_t room[3][65537];
    if (count < 4 || count % 4) {
        fputs("usage: recorder FILE FORM LIST [CLOCK STORE BEFORE AFTER]..\n", stderr);
        return 1;
    }
    FILE *file = fopen(words[1], "wb");
    if (!file)
        fail(words[1]);
    recording_start(file, (uint8_t)atoi(words[2]), read_file(words[3], room[0]));
    for (int i = 4; i < count; i += 4)
        recording_step(file, (uint32_t)strtoul(words[i], NULL, 10), read_file(words[i + 1], room[0]), read_file(words[i + 2], room[1]), read_file(words[i + 3], room[2]));
    int unwritten = ferror(file);
    if (fclose(file) || unwritten)
        fail(words[1]);
    return 0;
}
