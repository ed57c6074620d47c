/*
 * The placing of the podcast archive's groups on its drives, for C: placing a group and finding a day's drives, for the storage daemon; and for site
 * staff keeping a map and its table: filling the table, editing a drive, telling beforehand what an edit moves at most, storing the drives' values
 * under a name and returning to them, writing the map.
 *
 * Link with the archive that `packaging/archive` writes (target/staticlib/libcrush_place.a). It has no unwind tables and no debug lines:
 * inside it a debugger shows the names of functions but no lines, and a backtrace may end there. A drive of acceptance 65,536 or 0 is tested
 * without a hash: a breakpoint at 'jenkins::hash2' stops at the tests of the others, and once for the group of a day.
 *
 * What holds of every call:
 *
 *   Map       A map is lent as its frames: lines of hexadecimal digits, each ended by a newline. Its length alone ends it: no byte 0 is looked
 *             for. There is no other form of it and nothing to free: every call puts load's questions to the map that it is lent.
 *   Number    `number` is 0, or the number of the first question answered no. A refusal has zeros for all else that it answers, and alters
 *             nothing that was lent. crush_meaning has a sentence for each number.
 *   Space     What is written stands at the front of the space lent; what lies beyond it stays as it is. A length that is greater than needed
 *             does no harm.
 *   States    Named states lie with the caller too, in CRUSH_STATES words that belong to one map (see there); they are no part of its frames.
 *             Three calls are lent them: crush_load empties them, crush_store writes them, crush_return reads them.
 *   Pointers  None may be null, also where its length is 0. What one call is lent must not overlap. Bytes need no alignment; a table needs
 *             that of uint16_t, states that of uint32_t. Lengths are in bytes, and of a table in places; states have no length: all
 *             CRUSH_STATES words have to be there.
 *   Threads   A call keeps no state, allocates nothing, and calls only memcpy and memset of the C library. Any number of threads may call at
 *             once, also on one map, one table and one array of states, as long as nobody writes what a call is lent while it runs, and each
 *             call has its own space to write. crush_edit and crush_return write the map, the table and the moves: nobody else may read or
 *             write these three meanwhile. crush_load and crush_store write the states.
 *   Answers   A call always returns. The same bytes and numbers give the same answer every time.
 *   Stack     What a call takes grows with the levels of the map, of which there are at most 255. CRUSH_PLACE_STACK and CRUSH_STACK bytes are
 *             enough for every map: that is measured, with the deepest map, and not proved.
 *   Time      Load's questions take a time that grows with the map's bytes. To it a list adds the placing of one group, and a table and a
 *             ceiling that of every group. Where few groups move, an edit of an acceptance takes little longer than filling the table, and one
 *             of a weight less than filling it twice. Where many do, an edit takes up to four times as long as filling both tables, the one
 *             before it and the one behind it; and that one may take far longer to fill. A return takes less than filling the table twice
 *             where few groups move, and where most do half as long again as filling both tables. A store takes up to a fifth longer than
 *             load's questions, the longer the more states there are. All of this is measured.
 *
 * Load's questions, in the order in which they are put, which is not that of their numbers, each to the whole map before the next:
 *
 *    1  Has the map 1 to 65,536 bytes, the last a newline, all others lower-case hexadecimal digits or newlines?
 *    2  Is each line of kind 00 to 05, at that kind's length? (An 02 has 18 digits; behind its type stand the bucket's kind, two, and its weight,
 *       eight.)
 *    3  Is there one 00 first, then the 01s, 02s, 03s and 04s, and one 05 last?
 *    4  Does the 05 tell the number of lines before it?
 *    5  Is each field in its range, and 0 where unused? (A bucket's kind is 01, straw, or 02, tree.)
 *    6  Do the drives, the buckets and the (bucket, child) pairs strictly rise?
 *    7  Is every bucket and child of an 03, and every bucket taken, present?
 *    8  Is no item a child twice?
 *    9  Is each child's type below its bucket's?
 *   22  Has each bucket a child? (The child may weigh 0.)
 *   10  Has each bucket at most 64 children?
 *   11  Has the rule 1 to 16 steps, in blocks of take, selects and emit, with types that strictly fall from the bucket taken to 0, or to a step 5
 *       (select through), behind which its block has no further select?
 *   21  Has no step 5 type 0?
 *   12  Is the list at most 16 places wide in a block and 32 in all?
 *   23  Is the weight written for each bucket the sum of its children's weights?
 *   13  Do the drives weigh at most 67,107,840 in all? (No map that comes so far weighs more.)
 *
 * Some calls answer with these numbers, others with 14 for all of them; crush_sizes_of then says which it was.
 *
 * The calls' own questions, in the order in which they are put. Each call says which of them it puts, and what 16 wants room for:
 *
 *   14  Is the map one that load takes, as load, edit or return leaves it; and the states, where the call is lent them: are they at most eight, with
 *       different names of 16 bits, and each of exactly the map's drives with values that load takes?
 *   15  Is the group below G?
 *   16  Has the space or table lent room for the W places, the G x W places or the map's bytes that the call needs?
 *   17  Has the rule no first-n select?
 *   18  Is the frame an edit, its drive one of the map's, and its value in its range?
 *   24  Is a state stored under the name?
 *   19  Is the table what fill gives for the map, place by place?
 *   20  Has the space room for the moves, 23 bytes each?
 *   25  Is there room for the name: is it stored, or are fewer than eight?
 *
 * G is the number of groups of the map, W the width of its lists.
 */
#ifndef CRUSH_PLACE_H
#define CRUSH_PLACE_H

#include <stddef.h>
#include <stdint.h>

#ifdef __cplusplus
extern "C" {
#endif

/* Document 01 with changes 1 to 8 of document 02: 1 * 10000 + 8 * 100. */
#define CRUSH_VERSION 10800

/* Bytes of the longest map. Read a file into one byte more, so that a longer one is refused and not cut short. */
#define CRUSH_MAP_MOST 65536

/* Space for every list: 32 places. */
#define CRUSH_PLACE_MOST 64

/* Places of the largest table: 65,536 groups of 32. */
#define CRUSH_TABLE_MOST 2097152

/* Bytes of an edit's frame, without a newline. */
#define CRUSH_FRAME 14

/* Bytes of a move's frame, its newline included. */
#define CRUSH_MOVE 23

/* How many named states there can be. */
#define CRUSH_STATES_MOST 8

/*
 * Words for the states of every map, 24,586 of them, some 96 KiB: `uint32_t states[CRUSH_STATES]`. They need not be zeroed: crush_load leaves them
 * with no state, whatever they held. A caller may copy them, or keep them in a file, in the machine's own order of bytes. Of a map of n drives:
 *
 *   word 0        how many states there are, 0 to CRUSH_STATES_MOST
 *   word 1        n, where there is a state
 *   from 2 on     the states in the order in which their names were first stored, 1 + 3 * n words each: the name, 0 to 65,535, and then of each
 *                 drive, in the order of the map's lines, its number, its weight and its acceptance
 *
 * What lies beyond them is free: no call looks at it or alters it, but for the states stored there later.
 */
#define CRUSH_STATES (2 + CRUSH_STATES_MOST * (1 + 3 * 1024))

/* Stack for every call but crush_edit and crush_return. */
#define CRUSH_PLACE_STACK (256 * 1024)

/* Stack for every call. */
#define CRUSH_STACK (512 * 1024)

/* The place that holds no drive. */
#define CRUSH_PLACE_HOLE 0xffff

/* The version of the archive. It belongs to this header where it is CRUSH_VERSION. */
uint32_t crush_version(void);

/* What the question for a map's sizes answers. */
struct crush_sizes {
    uint32_t number; /* 0, or the number of the first of load's questions answered no */
    uint32_t groups; /* G, 1 to 65,536; or 0 on a refusal */
    uint32_t places; /* W, 1 to 32; or 0 on a refusal */
};

/* Puts load's questions to a map and tells its sizes: its table has groups * places places. No states are lent, and none are emptied. */
struct crush_sizes crush_sizes_of(const uint8_t *map, size_t map_len);

/*
 * Loads a map with which states are to be kept: answers what crush_sizes_of does, and afterwards no state is stored. Where it answers a number
 * other than 0, the states stay as they are.
 *
 *   states  CRUSH_STATES words, whatever they hold. Two of them are written.
 *
 * A map that crush_edit or crush_return wrote needs no load: its states would be lost.
 */
struct crush_sizes crush_load(const uint8_t *map, size_t map_len, uint32_t *states);

/* What the placing of a group answers. */
struct crush_placing {
    uint32_t number; /* 0, or the number of the first question answered no: see below */
    uint32_t places; /* how many places were written: W; or 0 on a refusal */
    uint32_t tries;  /* how many tries the list took, or 0 on a refusal */
};

/*
 * Writes the list of a group over the front of a space: each place is two bytes, high byte first, the number of a drive (0 to 1023) or 0xffff for
 * a hole. No drive stands in it twice.
 *
 *   group    the group to place, from 0 on.
 *   out      space for the list.
 *   out_len  how many bytes of space there are. CRUSH_PLACE_MOST are enough for every map; 2 * W are needed and written.
 *
 * The questions, in this order: load's, with their numbers, 15, and 16 (has the space room for W places?). 14 is never answered here.
 */
struct crush_placing crush_place(const uint8_t *map, size_t map_len, uint32_t group, uint8_t *out, size_t out_len);

/* What the question for a day's group answers. */
struct crush_day {
    uint32_t number; /* 0, or 14 where the map is refused */
    uint32_t group;  /* the group, or 0 on a refusal */
};

/*
 * The group that holds the records of day `day` of show `show` by this map, for which crush_place is then asked.
 *
 * The question: 14.
 */
struct crush_day crush_day_group(const uint8_t *map, size_t map_len, uint32_t show, uint32_t day);

/* What the question for a day's drives answers. */
struct crush_drives {
    uint32_t number; /* 0, or the number of the first question answered no: see below */
    uint32_t group;  /* the day's group, or 0 on a refusal */
    uint32_t places; /* how many places were written: W; or 0 on a refusal */
    uint32_t tries;  /* how many tries the list took, or 0 on a refusal */
};

/*
 * Both in one call, so that load's questions are put once: the group of a show's day, and its list into `out` as crush_place writes it.
 *
 * The questions, in this order: load's, with their numbers, and 16 (has the space room for W places?). 14 and 15 are never answered here: a day's
 * group is always one of the map's.
 */
struct crush_drives crush_day_drives(const uint8_t *map, size_t map_len, uint32_t show, uint32_t day, uint8_t *out, size_t out_len);

/* What filling a table answers. */
struct crush_filled {
    uint32_t number; /* 0, or the number of the first question answered no: see below */
    size_t places;   /* how many places were written: G * W; or 0 on a refusal */
};

/*
 * Fills the table that belongs to a map: the W places of group 0, then those of group 1, and so on to the last; each is the number of a drive or
 * CRUSH_PLACE_HOLE, a 16-bit number as the machine has them.
 *
 *   table      space for it.
 *   table_len  how many places (not bytes) of space there are. G * W are needed and written; CRUSH_TABLE_MOST are enough for every map.
 *
 * The questions, in this order: 14, and 16 (has the space room for the W places of each group?).
 */
struct crush_filled crush_fill(const uint8_t *map, size_t map_len, uint16_t *table, size_t table_len);

/* What an edit or a return answers. */
struct crush_edited {
    uint32_t number; /* 0, or the number of the first question answered no: see below */
    uint32_t moves;  /* how many places moved, as many as frames were written; or 0 on a refusal */
};

/*
 * Edits a drive: puts its new acceptance or weight into the map, brings the table up to date, and writes the moves. The map keeps its length, and
 * after a weight has the new weights of the buckets above the drive too. The table is afterwards what crush_fill gives for the new map.
 *
 *   map        the map before the edit, and after it.
 *   table      the table that belongs to it, as crush_fill, an edit or a return left it, and afterwards the one of the new map.
 *   table_len  how many places (not bytes) it has. What lies beyond the places of the last group is neither looked at nor written.
 *   frame      the edit, lower-case hexadecimal digits without a newline: "21", the drive (4 digits), its acceptance (8), 0 to 65,536; or "22",
 *              the drive (4), its weight (8), 0 to 65,535.
 *   frame_len  CRUSH_FRAME; an edit of another length is refused with 18.
 *   moves      space for the moves, in rising group and then place. Each is a line of CRUSH_MOVE bytes, in lower-case hexadecimal: "13", the
 *              group (8 digits), the place (2, from 1), the drive that it held (4) and the one that it holds now (4), of which ffff is a hole,
 *              the cause (2), and a newline.
 *   moves_len  how many bytes of space there are. CRUSH_MOVE for each move are needed and written; CRUSH_MOVE * G * W are enough for every edit,
 *              and CRUSH_MOVE times the moves that crush_ceiling tells for one that lowers an acceptance.
 *
 * The cause says why the place changed:
 *
 *   01  The edited drive passes its own acceptance test in only one of the two runs, before and after the edit.
 *   02  Another child wins a draw: in a straw bucket the one that is or holds the edited drive, in the run where that drive weighs more; in a
 *       tree that run turns to the side that holds it.
 *   03  In only one of the two runs an earlier place of the list holds the drive, or an earlier place of the same select the bucket; what
 *       changed that place is 01, 02 or 03 again, and at last 01 or 02.
 *
 * (04 is that of a return: see crush_return.)
 *
 * The questions, in this order: 14, 16 (has the table the W places of each group?), 17, 18, 19, and 20 (CRUSH_MOVE bytes for each move).
 */
struct crush_edited crush_edit(uint8_t *map, size_t map_len, uint16_t *table, size_t table_len, const uint8_t *frame, size_t frame_len,
                               uint8_t *moves, size_t moves_len);

/*
 * Stores the weights and acceptances of the map's drives under a name: in the place of what was stored under it, or behind all states. Other
 * states stay. Answers 0, or the number of the first question answered no.
 *
 *   states  CRUSH_STATES words, as crush_load or a store left them.
 *   name    any number of 16 bits.
 *
 * The questions, in this order: 14 (of the map and of the states), and 25. After a 14 ask crush_sizes_of: it tells the question that the map is
 * refused with, and where it answers 0, the states are at fault. crush_load would empty them.
 */
uint32_t crush_store(const uint8_t *map, size_t map_len, uint32_t *states, uint16_t name);

/*
 * Returns to the state of a name: gives every drive the weight and the acceptance that it had when the name was last stored, brings the table up to
 * date, and writes the moves. The map keeps its length, and has the weights of the buckets that belong to its drives. The table is afterwards what
 * crush_fill gives for it. The states are only read: the same name can be returned to again.
 *
 *   map        the map before the return, and after it.
 *   table      the table that belongs to it, as crush_fill, an edit or a return left it, and afterwards the one of the new map.
 *   table_len  how many places (not bytes) it has. What lies beyond the places of the last group is neither looked at nor written.
 *   states     CRUSH_STATES words, as crush_load or a store left them.
 *   name       that of the state.
 *   moves      space for the moves: each place that differs, and no other, as crush_edit writes them, all with cause 04.
 *   moves_len  how many bytes of space there are. CRUSH_MOVE for each move are needed and written; CRUSH_MOVE * G * W are enough for every return.
 *
 * The questions, in this order: 14 (of the map and of the states; then crush_sizes_of tells which, as behind crush_store), 16 (has the table the W
 * places of each group?), 17, 24, 19, and 20 (CRUSH_MOVE bytes for each move).
 */
struct crush_edited crush_return(uint8_t *map, size_t map_len, uint16_t *table, size_t table_len, const uint32_t *states, uint16_t name,
                                 uint8_t *moves, size_t moves_len);

/* What the question for a ceiling answers. */
struct crush_limit {
    uint32_t number; /* 0, or the number of the first question answered no: see below */
    uint32_t groups; /* how many groups have the drive in their list, each counted once; or 0 on a refusal */
    uint32_t moves;  /* W times as many: an edit moves no more places; or 0 on a refusal */
};

/*
 * How many places an edit of a drive's acceptance moves at most, before it is made. Lowering it, to 0 for a dead drive, moves places only in groups
 * that have the drive in their list: ask with the map and the table as they are. Raising it moves places only in groups that have it afterwards: what
 * the map and the table after the edit answer is the ceiling of that edit. (Both are proved.) Of an edit of a weight this says nothing.
 *
 *   table      the table that belongs to the map, as crush_fill, an edit or a return left it. It is only read.
 *   table_len  how many places (not bytes) it has. What lies beyond the places of the last group is not looked at.
 *   device     the number of the drive.
 *
 * The questions are those that an edit of the drive is asked, but for its value and its space for moves, in this order: 14, 16 (has the table the W
 * places of each group?), 17, 18 (of the drive alone: is it one of the map's?), and 19.
 */
struct crush_limit crush_ceiling(const uint8_t *map, size_t map_len, const uint16_t *table, size_t table_len, uint32_t device);

/* What writing a map answers. */
struct crush_written {
    uint32_t number; /* 0, or the number of the first question answered no: see below */
    size_t bytes;    /* how many bytes were written: as many as the map has; or 0 on a refusal */
};

/*
 * Writes the frames of a map that loads over the front of a space: the map's own bytes, which load again. States are no part of them.
 *
 *   out      space for the frames.
 *   out_len  how many bytes of space there are. As many as the map has are needed; CRUSH_MAP_MOST are enough for every map.
 *
 * The questions, in this order: 14, and 16 (has the space room for the map's bytes?).
 */
struct crush_written crush_write(const uint8_t *map, size_t map_len, uint8_t *out, size_t out_len);

/*
 * What a number that a call answered says, in one short sentence without a full stop; never null. This function is plain C and no part of the
 * proofs: the calls do not use it, and nothing shows that its words fit the questions.
 */
static inline const char *crush_meaning(uint32_t number) {
    switch (number) {
    case 0:
        return "all is well";
    /* made of docs/questions.tsv by tools/questions.py: begin */
    case 1:
        return "the map is empty, longer than 65,536 bytes, cut off, or has a byte that is no lower-case digit";
    case 2:
        return "a line is of no kind 00 to 05, or not of its kind's length";
    case 3:
        return "the kinds of lines are out of order, or 00 or 05 is missing or there twice";
    case 4:
        return "the 05 line does not tell the number of lines before it";
    case 5:
        return "a field is out of its range";
    case 6:
        return "drives, buckets or children do not strictly rise";
    case 7:
        return "a bucket or a child is named that the map does not have";
    case 8:
        return "an item is a child twice";
    case 9:
        return "a child's type is not below its bucket's";
    case 10:
        return "a bucket has more than 64 children";
    case 11:
        return "the rule is not 1 to 16 steps in blocks of take, selects and emit, with types that fall to 0 or end at a step 5";
    case 12:
        return "the list is wider than 16 places in a block, or 32 in all";
    case 13:
        return "the drives weigh more than 67,107,840 in all";
    case 14:
        return "load would not take the map, or the states lent are none of this map's: crush_sizes_of tells which";
    case 15:
        return "the map has no such group";
    case 16:
        return "the space or the table lent is too small";
    case 17:
        return "the rule has a first-n select, and such a map takes no edit and no return";
    case 18:
        return "the frame is no edit, the drive is not in the map, or the value is out of its range";
    case 19:
        return "the table is not what fill gives";
    case 20:
        return "the edit or return makes more moves than the space lent has room for";
    case 21:
        return "a step 5 has type 0";
    case 22:
        return "a bucket has no child";
    case 23:
        return "the weight written for a bucket is not the sum of its children's";
    case 24:
        return "no state is stored under the name";
    case 25:
        return "eight states are stored, none of them under the name";
    /* made of docs/questions.tsv by tools/questions.py: end */
    default:
        return "no number that a call answers";
    }
}

#ifdef __cplusplus
}
#endif

#endif
