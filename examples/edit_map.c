/*
 * Edits a drive in a map's file and prints the places that move, a line for each, as program `fill` does.
 *
 * From the root of the repository:
 *
 *     packaging/archive
 *     gcc -O2 -Wall -Wextra -std=c11 -Iinclude -o target/edit_map examples/edit_map.c target/staticlib/libcrush_place.a
 *     cp examples/archive.map target/edited.map
 *     target/edit_map target/edited.map 21002000000000
 *
 * FRAME is the edit, 14 digits: 21, the drive (4 digits) and its acceptance (8), or 22, the drive and its weight. The file is replaced in one step,
 * by one that was written beside it as MAP.new and is on the disk: whoever reads it finds the old map or the new one, whole. The moves are printed
 * once the new map is there. The exit status is 0; or 1 for a refusal, whose number and meaning go to standard error and which leaves the file as it
 * was; or 2 where the arguments or a file are at fault, memory is short or the output cannot be written. A second program that edits the file
 * meanwhile ends with 2, since MAP.new is there.
 */
#define _POSIX_C_SOURCE 200809L
#include "common.h"

#include <fcntl.h>
#include <libgen.h>
#include <string.h>
#include <sys/stat.h>
#include <unistd.h>

static void fail(const char *what) {
    perror(what);
    exit(2);
}

/* A copy of a name with an ending. */
static char *name_with(const char *name, const char *end) {
    size_t size = strlen(name) + strlen(end) + 1;
    char *both = room_for(size, 1);
    snprintf(both, size, "%s%s", name, end);
    return both;
}

/* Writes a file that does not exist yet, and has it on the disk. */
static void write_file(const char *name, mode_t mode, const uint8_t *data, size_t len) {
    int file = open(name, O_WRONLY | O_CREAT | O_EXCL, mode);
    if (file < 0)
        fail(name);
    for (size_t done = 0; done < len;) {
        ssize_t count = write(file, data + done, len - done);
        if (count < 0) {
            unlink(name);
            fail(name);
        }
        done += (size_t)count;
    }
    if (fchmod(file, mode) != 0 || fsync(file) != 0 || close(file) != 0) {
        unlink(name);
        fail(name);
    }
}

/* Puts the data in the place of a file, with the rights that it had; then the folder, which has the new name, is brought to the disk too. */
static void replace_file(const char *name, const uint8_t *data, size_t len) {
    struct stat old;
    char *beside = name_with(name, ".new"), *copy = name_with(name, "");
    if (stat(name, &old) != 0)
        fail(name);
    write_file(beside, old.st_mode & 07777, data, len);
    if (rename(beside, name) != 0) {
        unlink(beside);
        fail(name);
    }
    int folder = open(dirname(copy), O_RDONLY);
    if (folder < 0 || fsync(folder) != 0 || close(folder) != 0)
        fail(name);
    free(beside);
    free(copy);
}

int main(int argc, char **argv) {
    static uint8_t map[MAP_ROOM], text[CRUSH_MAP_MOST];
    if (argc != 3) {
        fprintf(stderr, "usage: edit_map MAP FRAME\n");
        return 2;
    }
    size_t map_len = read_map(argv[1], map), places;
    uint16_t *table = table_of(map, map_len, &places);
    /* room for a move of every place: no edit makes more */
    uint8_t *moves = room_for(places, CRUSH_MOVE);
    const uint8_t *frame = (const uint8_t *)argv[2];
    struct crush_edited edited = crush_edit(map, map_len, table, places, frame, strlen(argv[2]), moves, places * CRUSH_MOVE);
    expect_none(edited.number);
    struct crush_written written = crush_write(map, map_len, text, sizeof text);
    expect_none(written.number);
    replace_file(argv[1], text, written.bytes);
    fwrite(moves, CRUSH_MOVE, edited.moves, stdout);
    free(moves);
    free(table);
    expect_printed();
    return 0;
}
