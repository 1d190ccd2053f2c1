/* uskelzar.h: which zone holds a fix, by a PLB border file; local time, by a TZif file; dates; the slip: from a receiver's sentence, a map and the zones' files to the line that is printed; and a writer
 * of borders, a builder of files, one that holds yards which may still change, what builds an index and an atlas, salvage of a damaged file.
 *
 * Two parts, each for an archive of its own: the printer's twenty functions, in libuskelzar.a (pkg-config's uskelzar), and the office's thirteen, in libuskelzar-office.a (uskelzar-office). Link the first,
 * or both; neither calls the other. What their functions answer, write and touch, and that they end, is proved for every input; of the calls of
 * a builder what they answer and write is proved for a state, lists and notes as its calls have left them, and for numbers
 * that do not fit the lists, and for all others what they touch, and that they end. What the archives call is seen to by a
 * test of them. What holds for all thirty-three:
 *
 * You bring    pointers that are not null, aligned for their type and good for their length: to read from, or where the
 *              buffer is lent (no const), to write to. Lent buffers and `reply` do not overlap each other or an input, and
 *              nobody else writes to any of them during the call. A length counts elements, and may be 0. Nothing else is
 *              asked: any bytes are a file, any float is a coordinate (NaN and infinities too), any room is a room.
 * You get      0 and the answer's values in `reply`; or the number of a refusal (enum uskelzar_refusal), its cause in
 *              reply[0], its detail in reply[1], and zeros in the other three words (of many fixes, the index in reply[2]).
 * Lent buffers are written whole on every call, whatever they held before: the answer at the front and zeros behind it; on
 *              a refusal zeros alone. No call leaves half an answer, or anything of an earlier one. Only a builder's state and
 *              its five lists, which uskelzar_begin writes whole, and its four notes, which uskelzar_add writes, are kept from
 *              call to call, and a refused call leaves them. Of what uskelzar_add is lent to work in, some may stay as it was.
 * It never     allocates, keeps a pointer or anything of its own between calls, touches anything but its arguments, reads or writes a
 *              file, stops the program, or runs without end. It calls nothing but memset and memcpy; threads may call it
 *              at the same time.
 */
#ifndef USKELZAR_H
#define USKELZAR_H

#include <stdbool.h>
#include <stddef.h>
#include <stdint.h>

/* ---- the release of this header, and of the archives that go with it */
#define USKELZAR_RELEASE "0.7.0"
#define USKELZAR_RELEASE_NUMBER 700 /* major * 10,000 + minor * 100 + patch */

#ifdef __cplusplus
extern "C" {
#endif

/* ---- what a call returns: 0, or the number of a refusal */
enum uskelzar_refusal {
    USKELZAR_ANSWERED = 0,
    USKELZAR_TOO_LARGE = 1,           /* file, or the writer's earlier data, over 1,073,741,824 bytes */
    USKELZAR_TOO_SHORT = 2,           /* under 7 bytes; detail: the length */
    USKELZAR_MAGIC = 3,               /* not "PLB"; detail: the three bytes, the first highest */
    USKELZAR_TABLE_TYPE = 4,          /* neither 'T' nor 'C'; detail: the byte */
    USKELZAR_VERSION = 5,             /* version 2 or more; detail: the byte */
    USKELZAR_FIELD_NAME = 6,          /* bad field name; detail: its index; with a cause */
    USKELZAR_NOTICE = 7,              /* bad notice; with a cause */
    USKELZAR_FIRST_SIZE = 8,          /* first size can't be read */
    USKELZAR_SECOND_SIZE = 9,         /* second size can't be read */
    USKELZAR_THIRD_SIZE = 10,         /* third size can't be read */
    USKELZAR_LENGTH_MISMATCH = 11,    /* length mismatch; detail: the length that the header comes to */
    USKELZAR_LONG_NUMBER = 12,        /* eleventh byte of a number */
    USKELZAR_OUT_OF_RANGE = 13,       /* an integer step leaves its range */
    USKELZAR_STRING_PAST_END = 14,    /* string byte past the end */
    USKELZAR_FIELD_VALUE = 15,        /* bad field value; with a cause */
    USKELZAR_PRECISION = 16,          /* precision 0 or above 32; not by opening */
    USKELZAR_TOO_MANY_HITS = 17,      /* more hits than slots */
    USKELZAR_TEXT_ROOM = 18,          /* text doesn't fit; a slip's line too, whose length is then in reply[1] */
    USKELZAR_BORDER_POINTS = 19,      /* no points, over 65,535, or the two lists differ in length */
    USKELZAR_COORDINATE = 20,         /* a coordinate beyond +-1,073,741,823 */
    USKELZAR_REPEATED_POINT = 21,     /* a point equal to the one before it (the last may equal the first) */
    USKELZAR_FIRST_POINT_ZERO = 22,   /* first point (0,0) */
    USKELZAR_PIECE = 23,              /* piece list; detail: the piece's index */
    USKELZAR_OUTPUT_ROOM = 24,        /* border doesn't fit the output */
    USKELZAR_YARDS = 25,              /* builders: no yards, over 4,096, over 255 names, or a yard with more or fewer values than names */
    USKELZAR_TEXT = 26,               /* builders: a text over 255 bytes or not UTF-8; salvage: a name or notice of 256 bytes, which can't stand inline */
    USKELZAR_FORM = 27,               /* builders: a precision outside 1 to 31, a version above 1, or a type other than 'T' and 'C' */
    USKELZAR_FILE_ROOM = 28,          /* builders, salvage: output, list or working lists too short, or a file over 1,073,741,824 bytes */
    USKELZAR_NO_YARD = 29,            /* drop_last: the builder holds no yard */
    USKELZAR_NO_VALUE = 30,           /* replace: no such yard or field */
    USKELZAR_INCOMPLETE = 31,         /* a number that the file's end cuts; of the two strict functions and of salvage */
    USKELZAR_NOTHING_LEFT = 32,       /* salvage: no entry is left */
    USKELZAR_FIXES = 33,              /* many fixes: lists of unequal length, over 4,096 fixes, or `answers` too short */
    USKELZAR_INDEX_TABLE = 34,        /* no index or atlas: the table is not in order, can't be read, or runs past the metadata start */
    USKELZAR_INDEX_ROOM = 35,         /* index or atlas doesn't fit the lent words */
    USKELZAR_OTHER_INDEX = 36,        /* index or atlas and file do not go together, or a place in the words leads out of them; is_index, is_atlas: other words; is_atlas: a file that has none too */
    /* of a TZif file: the rule of RFC 8536 or 9636 that is broken; detail: a place in the file, that of .. */
    USKELZAR_TZIF_MAGIC = 40,         /* a header does not begin with "TZif": the header */
    USKELZAR_TZIF_VERSION = 41,       /* version missing, not 0, '2', '3' or '4', or the second not the first: the octet */
    USKELZAR_TZIF_HEADER = 42,        /* the file ends inside a header: the header */
    USKELZAR_TZIF_ISUTCNT = 43,       /* neither 0 nor typecnt: the count */
    USKELZAR_TZIF_ISSTDCNT = 44,      /* neither 0 nor typecnt: the count */
    USKELZAR_TZIF_TYPECNT = 45,       /* is 0: the count */
    USKELZAR_TZIF_CHARCNT = 46,       /* is 0: the count */
    USKELZAR_TZIF_BLOCK = 47,         /* the file ends inside the data block, by its counts: the block */
    USKELZAR_TZIF_TIME = 48,          /* a transition time not above the one before it: the later time */
    USKELZAR_TZIF_TYPE = 49,          /* a transition type not below typecnt: the octet */
    USKELZAR_TZIF_UTOFF = 50,         /* is -2^31: the utoff */
    USKELZAR_TZIF_ISDST = 51,         /* neither 0 nor 1: the octet */
    USKELZAR_TZIF_DESIGIDX = 52,      /* not below charcnt: the octet */
    USKELZAR_TZIF_DESIGNATION = 53,   /* no NUL at or after desigidx: the desigidx */
    USKELZAR_TZIF_OCCURRENCE = 54,    /* the first negative, a later one under 2,419,199 s above the last; version 4's expiry: not above it: the occurrence */
    USKELZAR_TZIF_CORRECTION = 55,    /* not exactly 1 away from the one before it, 0 before the first; version 4: any first, an expiry repeats the last: the correction */
    USKELZAR_TZIF_STANDARD = 56,      /* a standard/wall indicator other than 0 and 1: the octet */
    USKELZAR_TZIF_UT = 57,            /* a UT/local indicator other than 0 and 1, or 1 without the standard one: the octet */
    USKELZAR_TZIF_FOOTER = 58,        /* no newline at its start, a NUL, no newline at its end: the octet met, or the end */
    USKELZAR_TZIF_REST = 59,          /* bytes behind the end: the first of them */
    USKELZAR_TZIF_STRING = 60,        /* no TZ string: its fault; or it contradicts the last transition: the newline before it */
    USKELZAR_TZIF_YEAR = 61,          /* the rule's instant (local time) or the clock (civil time) is outside the years 1 to 9999; detail: 0 */
    /* of a slip: its request, its map, its zones and their hours */
    USKELZAR_NOT_REQUEST = 80,        /* neither a sentence nor a plain line; detail: the place of the field or word */
    USKELZAR_NO_FIX = 81,             /* the receiver has no fix, or one that is not measured */
    USKELZAR_CHECKSUM = 82,           /* a sentence whose checksum is wrong; detail: where its `*` is looked for */
    USKELZAR_OTHER_SENTENCE = 83,     /* a sentence, but not RMC */
    USKELZAR_NO_PLACE = 84,           /* a number, date or time out of its range; latitude not from -90 to 90, longitude not from -180 to 180, NaN; detail: the place */
    USKELZAR_NOT_WHOLE = 85,          /* the search of the map was not whole; detail: its mark */
    USKELZAR_NO_ZONE = 86,            /* no zone holds the fix */
    USKELZAR_NO_NAMES = 87,           /* the map is not one of time zones, or has not both names */
    USKELZAR_NO_FILE = 88,            /* no file in the bundle under the zone's name */
    USKELZAR_BUNDLE = 89,             /* the bundle of zones is damaged; detail: the place */
    USKELZAR_UNKNOWN = 90,            /* the zone's file says nothing of the instant */
    USKELZAR_LEAP_SECONDS = 91,       /* the zone's file counts leap seconds: its scale is not the instant's */
    USKELZAR_HOURS_DIFFER = 92        /* zones hold the fix whose hours differ */
};

/* reply[0] of a refusal: which of the two causes, for 6, 7 and 15; of a slip whose zone is refused, which match it was; otherwise none */
enum uskelzar_cause { USKELZAR_CAUSE_NONE = 0, USKELZAR_CAUSE_ENCODING = 1, USKELZAR_CAUSE_UTF8 = 2 };

/* ---- the words of a reply */
enum { USKELZAR_REPLY_WORDS = 5 };
enum { USKELZAR_REFUSED_CAUSE = 0, USKELZAR_REFUSED_DETAIL = 1 };

/* ======== The printer's functions: libuskelzar.a
 * What is asked at a fix and an instant: opening, lookups, through an index or an atlas too, local and civil time, the slip and what it reads by. */

/* ---- how a search ended. Print a zone only where it was whole.
 * A search stops at the table's end, or early, at an entry whose lower latitude is above the fix: in a table that is in order,
 * by rising lower latitude, no later entry can hold the fix. After an early stop the rest of the table is read for the mark:
 * a search is whole only where no entry behind the stop holds the fix, all can be read and none, the stopping one too, runs
 * past the metadata start. Then its whole answer is that of a search that never stops early. */
enum uskelzar_end {
    USKELZAR_END_WHOLE = 1,           /* no entry that holds the fix was passed over */
    USKELZAR_END_TABLE = 2,           /* an entry could not be read, or behind an early stop one runs past the table */
    USKELZAR_END_BORDER = 3,          /* stopped at a border that failed */
    USKELZAR_END_ORDER = 4            /* the table is not in order: an entry behind the stop holds the fix and was not looked at */
};

/* ---- what a match is, of all hits with its metadata id: the last of their verdicts on a border; with none, 1 where those inside
 * and those excluded differ in number, and no match where they are as many. So an excluded border takes the border round it
 * away, and an excluded border alone is a match of kind 1. No answer has kind 2. */
enum uskelzar_kind {
    USKELZAR_IN_ZONE = 1,
    USKELZAR_IN_EXCLUDED_ZONE = 2,
    USKELZAR_ON_BORDER_VERTEX = 3,
    USKELZAR_ON_BORDER_SEGMENT = 4
};

/* ---- the words of the printer's replies */
enum {
    USKELZAR_OPEN_TYPE = 0,           /* 'T' time zones, 'C' countries */
    USKELZAR_OPEN_VERSION = 1,        /* 0 or 1 */
    USKELZAR_OPEN_PRECISION = 2,      /* any byte; lookup takes 1 to 32 */
    USKELZAR_OPEN_FIELDS = 3,         /* how many fields a zone has */
    USKELZAR_OPEN_USED = 4            /* bytes of text used */
};
enum {
    USKELZAR_LOOKUP_MATCHES = 0,      /* in both lookups */
    USKELZAR_LOOKUP_END = 1,          /* in both lookups: enum uskelzar_end */
    USKELZAR_LOOKUP_SAFEZONE = 2,     /* the bits of a float; 0 if not asked */
    USKELZAR_LOOKUP_USED = 3,         /* bytes of text used */
    USKELZAR_SIMPLE_DESCRIBED = 2,    /* 1: there is a description; 0: there is none */
    USKELZAR_SIMPLE_LENGTH = 3        /* its bytes */
};
enum {
    USKELZAR_MANY_FIXES = 0,          /* fixes answered */
    USKELZAR_MANY_MATCHES = 1,        /* matches of all of them */
    USKELZAR_MANY_USED = 2,           /* bytes of text used */
    USKELZAR_MANY_INDEX = 2           /* of a refusal: the index of its fix, 0 for 33 and what opening refuses */
};
enum {
    USKELZAR_CIVIL_YEAR = 0,
    USKELZAR_CIVIL_MONTH = 1,         /* 1 to 12 */
    USKELZAR_CIVIL_DAY = 2,           /* 1 to 31 */
    USKELZAR_CIVIL_HOUR = 3,
    USKELZAR_CIVIL_MINUTE = 4,
    USKELZAR_CIVIL_SECOND = 5,
    USKELZAR_CIVIL_WEEKDAY = 6,       /* 0 is Sunday */
    USKELZAR_CIVIL_WORDS = 7
};
enum {
    USKELZAR_LOCAL_KNOWN = 0,         /* 0: local time is not known, and all words are 0; else the scale, of USKELZAR_SCALE_.. */
    USKELZAR_LOCAL_OFFSET = 1,        /* seconds east of UT: the bits of an int32_t */
    USKELZAR_LOCAL_DAYLIGHT = 2,      /* 1: daylight time; 0: standard time */
    USKELZAR_LOCAL_LENGTH = 3,        /* bytes of the abbreviation */
    USKELZAR_LOCAL_CORRECTION = 4     /* leap seconds at the instant, 0 in UNIX time: the bits of an int32_t */
};
enum {
    USKELZAR_SCALE_UNIX = 1,          /* the instant was read as UNIX time */
    USKELZAR_SCALE_OWN = 2            /* it was read on the file's own scale, which counts leap seconds */
};
enum {
    USKELZAR_REQUEST_LAT = 0,         /* the bits of a float */
    USKELZAR_REQUEST_LON = 1,         /* the bits of a float */
    USKELZAR_REQUEST_INSTANT = 2      /* seconds from 1970: the bits of an int64_t */
};
enum {
    USKELZAR_FOUND_START = 0,         /* where a zone's file begins in its bundle */
    USKELZAR_FOUND_LENGTH = 1         /* its bytes */
};
enum {
    USKELZAR_SLIP_LENGTH = 0,         /* bytes of the line */
    USKELZAR_SLIP_MATCHES = 1,
    USKELZAR_SLIP_OFFSET = 2          /* seconds east of UT: the bits of an int32_t */
};

/* ---- a match in `hits`: four words. A list of n words has room for n / 4 hits. */
enum {
    USKELZAR_HIT_POLYGON = 0,         /* the number of the first hit's table entry, from 0 */
    USKELZAR_HIT_METADATA = 1,        /* which zone it is in the file */
    USKELZAR_HIT_KIND = 2,            /* enum uskelzar_kind */
    USKELZAR_HIT_PLACE = 3,           /* where that entry begins: its first byte, counted from the file's first */
    USKELZAR_HIT_WORDS = 4
};

/* ---- what a fix of many was answered, in `answers`: three words */
enum { USKELZAR_ANSWER_MATCHES = 0, USKELZAR_ANSWER_END = 1, USKELZAR_ANSWER_SAFEZONE = 2, USKELZAR_ANSWER_WORDS = 3, USKELZAR_MOST_FIXES = 4096 };

/* What the file's header says.
 * Answers: type, version, precision, number of fields, bytes of text used.
 * text: the field names in order, then the notice; each is its length in two bytes, the high one first, and its bytes, which
 *       are UTF-8.
 * Refuses: 1 to 14; 18 last, where names and notice don't fit. */
uint8_t uskelzar_open(const uint8_t *file, size_t file_length, uint8_t *text, size_t text_length,
                      uint64_t reply[USKELZAR_REPLY_WORDS]);

/* The zones that hold a fix, in degrees; `asked`: with the safezone.
 * Answers: matches, end mark, safezone bits, bytes of text used. The search was whole where 0 was returned and the end mark, reply[1], is 1: ask both, since a
 *       refusal has its detail there, and a 6 for the second name leaves a 1. The safezone is the distance in degrees, those of longitude
 *       counted like those of latitude, to the nearest border among those whose box holds the fix: 0 on a border, very large
 *       where there is none; at precision 32 it is negative.
 * hits: the matches, four words each. While it searches the list must hold every hit, and several hits with one metadata id
 *       become one match: so room for the matches alone may be too little.
 * text: the fields of the first match in file order, then those of the second, and so on; each is one byte with the field's
 *       index, its length in two bytes, the high one first, and its bytes, which are UTF-8.
 * Refuses: what open refuses but for its 18; then 16; then the first fault met, 12, 13 or 17 in the search, 12, 14, 15 or 18
 *       in the fields. */
uint8_t uskelzar_lookup(const uint8_t *file, size_t file_length, float lat, float lon, bool asked, uint32_t *hits,
                        size_t hits_length, uint8_t *text, size_t text_length, uint64_t reply[USKELZAR_REPLY_WORDS]);

/* The same two, but a number that the file's end cuts is refused, with 31: where it is read, behind 12 and before its value is used. What they
 * take, answer, write and refuse is otherwise that of the plain ones. So each is refused 31 exactly where its plain one would read such a number
 * before it is refused or ends, and else replies and writes what its plain one does; of a file whose last byte is below 128 it always does.
 * uskelzar_lookup_strict opens strictly, then 16, then searches; behind an early stop a cut number is end mark 2, as in the plain lookup. A string
 * or an entry that is not there at all fails as before. */
uint8_t uskelzar_open_strict(const uint8_t *file, size_t file_length, uint8_t *text, size_t text_length,
                             uint64_t reply[USKELZAR_REPLY_WORDS]);
uint8_t uskelzar_lookup_strict(const uint8_t *file, size_t file_length, float lat, float lon, bool asked, uint32_t *hits,
                               size_t hits_length, uint8_t *text, size_t text_length, uint64_t reply[USKELZAR_REPLY_WORDS]);

/* The zones that hold each of many fixes: fix i is lats[i], lons[i]. The file is opened once; each fix is answered as by lookup,
 * in the room that the earlier ones left.
 * Answers: fixes, matches of all of them, bytes of text used. No fix is answered with zeros once the file opens.
 * hits: the matches of the first fix, then those of the second, and so on. Hits that merge away are free again for the next fix.
 * text: the fields of all matches, in the same order.
 * answers: of each fix its match count, end mark and safezone bits (0 if not asked), three words; the counts part `hits` and, with
 *       the number of fields, `text`.
 * Refuses: 33 before everything else; then what open refuses but for its 18; then as lookup does, at the first fix that is refused:
 *       16, 12, 13, 17, 14, 15, 18, those of room against what the earlier ones left. reply[2] is the index of that fix. */
uint8_t uskelzar_lookup_many(const uint8_t *file, size_t file_length, const float *lats, size_t lats_length, const float *lons,
                             size_t lons_length, bool asked, uint32_t *hits, size_t hits_length, uint8_t *text,
                             size_t text_length, uint32_t *answers, size_t answers_length,
                             uint64_t reply[USKELZAR_REPLY_WORDS]);

/* The zone that holds a fix, as one text: of time zones TimezoneIdPrefix and TimezoneId joined ("Europe/" "Berlin"), of
 * countries Name; of the first match, and of fields with one name the last.
 * Answers: matches, end mark, 1 or 0 for described or not, the description's length. There is none where nothing matches or
 *       the file has no field of a wanted name.
 * hits: as for lookup.
 * text: the description, without a zero byte at its end (one stands behind it if there is room).
 * Refuses: as lookup; the fields of every match are checked, and 18, for the description alone, comes last. */
uint8_t uskelzar_simple_lookup(const uint8_t *file, size_t file_length, float lat, float lon, uint32_t *hits,
                               size_t hits_length, uint8_t *text, size_t text_length,
                               uint64_t reply[USKELZAR_REPLY_WORDS]);

/* An index or an atlas stands beside a file, in words that the office has built (uskelzar_build_index, uskelzar_build_atlas).
 * Whether words keep this file's length, header and table: length, metadata start, where the lists begin, that they end inside the words, and every byte up to
 * the metadata are compared. Records, starts and lists are not looked at: they are believed. So for words that uskelzar_build_index gave, 0 says that they are an
 * index of this file, or of one with the same length, header and table; of other words it does not say that they are an index.
 * Answers: no value; 0 says that they keep them.
 * Refuses: what open refuses but for its 18; then 16, 36. */
uint8_t uskelzar_index_tied(const uint8_t *file, size_t file_length, const uint32_t *index, size_t index_length,
                            uint64_t reply[USKELZAR_REPLY_WORDS]);

/* uskelzar_lookup through an index: it answers, writes and refuses what uskelzar_lookup does, where uskelzar_build_index gave the words and uskelzar_index_tied
 * said 0 of them and this file. It asks neither: any words are taken, and their records, starts and lists are believed. Of other words the answer is theirs, and may
 * miss a zone under end mark 1; nothing outside them is touched.
 * Refuses: what open refuses but for its 18; then 16; then 36 where length and metadata start are not the file's or the tile's list is not inside the words;
 *       then as lookup, and 36 at a number in the list that has no entry. */
uint8_t uskelzar_lookup_through(const uint8_t *file, size_t file_length, const uint32_t *index, size_t index_length, float lat,
                                float lon, bool asked, uint32_t *hits, size_t hits_length, uint8_t *text, size_t text_length,
                                uint64_t reply[USKELZAR_REPLY_WORDS]);

/* The same after a comparison: uskelzar_index_tied, then uskelzar_lookup_through. For words that uskelzar_build_index gave, it is uskelzar_lookup wherever it does
 * not refuse with 36. Records, starts and lists are believed here too: of words that uskelzar_build_index did not give the answer is theirs. */
uint8_t uskelzar_lookup_indexed(const uint8_t *file, size_t file_length, const uint32_t *index, size_t index_length, float lat,
                                float lon, bool asked, uint32_t *hits, size_t hits_length, uint8_t *text, size_t text_length,
                                uint64_t reply[USKELZAR_REPLY_WORDS]);

/* uskelzar_lookup through an atlas: it answers, writes and refuses what uskelzar_lookup does, where uskelzar_is_atlas said 0 of the words and this file. It does not
 * ask that: any words are taken, and of other words the answer is theirs, and may miss a zone under end mark 1; nothing outside them is touched. No words are 36 here.
 * Refuses: what open refuses but for its 18; then 16; then 36 where the words do not go with the file or are cut; then as lookup, and 36 at a number or a place in
 *       the words that leads out of them. */
uint8_t uskelzar_lookup_atlas(const uint8_t *file, size_t file_length, const uint32_t *atlas, size_t atlas_length, float lat,
                              float lon, bool asked, uint32_t *hits, size_t hits_length, uint8_t *text, size_t text_length,
                              uint64_t reply[USKELZAR_REPLY_WORDS]);

/* uskelzar_simple_lookup and uskelzar_lookup_many through an atlas, or without one where `atlas_length` is 0: each answers, writes and refuses what its plain one does, where there are no words or
 * uskelzar_is_atlas said 0 of them and this file. It does not ask that: of other words what uskelzar_lookup_atlas says of them holds, and 36 is refused where it is there, of many fixes at the first
 * that meets it. */
uint8_t uskelzar_simple_atlas(const uint8_t *file, size_t file_length, const uint32_t *atlas, size_t atlas_length, float lat,
                              float lon, uint32_t *hits, size_t hits_length, uint8_t *text, size_t text_length,
                              uint64_t reply[USKELZAR_REPLY_WORDS]);
uint8_t uskelzar_many_atlas(const uint8_t *file, size_t file_length, const uint32_t *atlas, size_t atlas_length,
                            const float *lats, size_t lats_length, const float *lons, size_t lons_length, bool asked,
                            uint32_t *hits, size_t hits_length, uint8_t *text, size_t text_length, uint32_t *answers,
                            size_t answers_length, uint64_t reply[USKELZAR_REPLY_WORDS]);

/* Local time at an instant, by a TZif file (RFC 8536 and 9636, versions 1 to 4) and the TZ string of its footer, all of
 * which is checked first. The instant is in seconds from 1970-01-01 00:00:00 UT, on the file's own scale: UNIX time, unless
 * the block that answers (the only one of version 1, else the second) has leap-second records.
 * Answers: the scale, the offset's bits, the daylight flag, the abbreviation's length, the correction's bits: by the last
 *       transition that is not after the instant; before the first by type 0. After the last, and throughout where there are
 *       none, by the TZ string, where the file has one; where it has none, by type 0 if there are no transitions, and else
 *       unknown: all words are 0. The scale is 1 where that block has no leap-second records: the instant was read as UNIX
 *       time, and the correction is 0. It is 2 where it has: the instant was read on the file's scale, and the correction is
 *       that of the last record not after it, 0 before the first.
 * text: the abbreviation, without a zero byte at its end (one stands behind it if there is room); zeros where it is unknown.
 * Refuses: 1; 40 to 60, the first fault in file order; 61 where the string would answer; 18 last. */
uint8_t uskelzar_local_time(const uint8_t *file, size_t file_length, int64_t instant, uint8_t *text, size_t text_length,
                            uint64_t reply[USKELZAR_REPLY_WORDS]);

/* The date and the time of day that a clock shows at an instant, so many seconds east of UT: with local time's offset, local
 * time. `reply` has seven words of its own.
 * Answers: year (1 to 9999), month, day, hour, minute, second, weekday (0 is Sunday, 6 Saturday).
 * Refuses: 61, with seven zeros, where the clock is outside the years 1 to 9999. */
uint8_t uskelzar_civil_time(int64_t instant, int32_t offset, uint64_t reply[USKELZAR_CIVIL_WORDS]);

/* What a request means. A request is one line of at most 255 bytes; one line end (LF, CR LF or CR) at its end is no part of it. It is a sentence of a receiver, which begins with `$`, or a
 * plain line:
 *       $GNRMC,115959.00,A,5231.200000,N,01324.000000,E,0.0,0.0,010726,,,A*41
 *       52.52 13.40 2026-07-01T11:59:59Z
 *       52.52 13.40 1782907199
 * A sentence is RMC of NMEA 0183 of any talker, with a checksum. Asked in this order: checksum; address, two of A to Z and 0 to 9, and RMC; ten fields at least; status A; mode, if there is a
 *       field 12: none, A, D, F, P or R; time hhmmss, with a point and digits behind it or without, which are dropped; latitude ddmm, with a point and one to nine digits or without, then N or S;
 *       longitude dddmm likewise, then E or W; date ddmmyy, of 1980 to 2079. Hours are below 24, minutes and seconds below 60, degrees at most 90 and 180. Other fields are not looked at.
 * A plain line has three words, blanks or tabs between them: latitude and longitude, each a sign or none, one to three digits, and a point and one to nine digits or none, at most 90 and 180; the
 *       instant as seconds from 1970, a sign or none and one to nineteen digits, or as a date and time in UTC of the years 1 to 9999.
 * Answers: the bits of the floats nearest to the latitude and the longitude that it spells, each rounded once, and +0 for every zero; the bits of the instant, on a scale without leap seconds.
 * Refuses: 80 where it is empty or too long (detail 0, 255). A sentence: 82 (detail: where its `*` is looked for, the length less 3 or 0); 83 for another address of two to eight such letters and
 *       digits, which is no fault in a receiver's stream, and else 80; 80 for too few fields (detail: the `*`); 81 for status V, 80 for any other but A; 81 for another mode; then field by field 80 for
 *       a field that has not its form and 84 for one out of its range, before the next is looked at. A plain line: the same word by word, and 80 last for what stands behind the third. Their detail is
 *       the place of the field's or word's first byte, that of the line's end where a word is missing; of 81 and 83 it is 0. */
uint8_t uskelzar_request(const uint8_t *request, size_t request_length, uint64_t reply[USKELZAR_REPLY_WORDS]);

/* A zone's TZif file in a bundle of them, which has the form of Android's file `tzdata` (docs/FORMAT.md), by the zone's name.
 * Answers: where the file begins, counted from the bundle's first byte, and its length: by the first entry whose 40 bytes are the name and then zeros. The file itself is not looked at.
 * Refuses: 89 for the head, in this order (detail): under 24 bytes, or another beginning than "tzdata" (0); byte 11 not 0 (11); the index begins before byte 24 (12); the data before the index, or
 *       the index is no whole number of entries (16); the data ends before it begins, or behind the bundle (20); a number above 2^31 - 1 in its turn. Then 88 where no entry has the name; 89 where
 *       the entry that has it does not lie in the data (detail: the entry's first byte). Other entries are not looked at. */
uint8_t uskelzar_bundle_find(const uint8_t *bundle, size_t bundle_length, const uint8_t *name, size_t name_length,
                             uint64_t reply[USKELZAR_REPLY_WORDS]);

/* The slip that a request asks for, by a map of time zones and a bundle of their TZif files: the line to print.
 *       Wed 2026-07-01 13:59:59 +02:00 CEST Europe/Berlin
 * Weekday, date, time, offset (`-` below zero, else `+`; with seconds where it has some), and of each different zone, in the order of the matches, the abbreviation and the name, ", " between one
 * zone and the next; all of it ASCII: a byte of abbreviation or name outside 33 to 126 is a `?`. A zone's name is its TimezoneIdPrefix and its TimezoneId, joined; names are compared before that.
 * request: as for uskelzar_request.
 * map:     a file of type 'T' to look up in; it is looked up without the safezone. zones: a bundle, as for uskelzar_bundle_find.
 * Answers: the line's length, how many matches there are, the offset's bits.
 * hits, text: as uskelzar_lookup leaves them, so that a slip can be traced to its entries.
 * out:     the line, without a line end or a zero byte (zeros stand behind it if there is room).
 * Refuses: what uskelzar_request refuses; what uskelzar_lookup refuses, with its cause and detail; 85 where the search was not whole (detail: the end mark); 86 where nothing matches; 87 where the
 *       map is of another type or has not both names. Then match by match, with its number in reply[0], from 1, and 255 from the 255th on: 89 and 88 as uskelzar_bundle_find; of the zone's file 1 and
 *       40 to 60, places in that file; 91 where it counts leap seconds, so that its scale is not the instant's; 61 where its rule would answer outside the years 1 to 9999; 90 where local time is not
 *       known; 61 where the clock is outside those years. Then 92 where the matches have not all one offset, and so one date and time; 18 last, for the line (detail: its length; of the lookup's it is
 *       0). Not stamped, hits, text and out are zero, whatever the lookup had answered. */
uint8_t uskelzar_slip(const uint8_t *request, size_t request_length, const uint8_t *map, size_t map_length,
                      const uint8_t *zones, size_t zones_length, uint32_t *hits, size_t hits_length, uint8_t *text,
                      size_t text_length, uint8_t *out, size_t out_length, uint64_t reply[USKELZAR_REPLY_WORDS]);

/* The slip at a fix, in degrees, and an instant, in seconds from 1970: what uskelzar_slip answers, writes and refuses for a request that means these.
 * Refuses: in the place of the request's refusals 84 (detail 0), where the latitude is not from -90 to 90 or the longitude not from -180 to 180; NaN is neither. */
uint8_t uskelzar_slip_at(float lat, float lon, int64_t instant, const uint8_t *map, size_t map_length, const uint8_t *zones,
                         size_t zones_length, uint32_t *hits, size_t hits_length, uint8_t *text, size_t text_length,
                         uint8_t *out, size_t out_length, uint64_t reply[USKELZAR_REPLY_WORDS]);

/* uskelzar_slip and uskelzar_slip_at through an atlas of the map, or without one where `atlas_length` is 0: each answers, writes and refuses what its plain one does, where there are no words or
 * uskelzar_is_atlas said 0 of them and the map. It does not ask that: of other words what uskelzar_lookup_atlas says of them holds, and its 36 is among the refusals of the lookup. */
uint8_t uskelzar_slip_atlas(const uint8_t *request, size_t request_length, const uint8_t *map, size_t map_length,
                            const uint32_t *atlas, size_t atlas_length, const uint8_t *zones, size_t zones_length,
                            uint32_t *hits, size_t hits_length, uint8_t *text, size_t text_length, uint8_t *out,
                            size_t out_length, uint64_t reply[USKELZAR_REPLY_WORDS]);
uint8_t uskelzar_slip_at_atlas(float lat, float lon, int64_t instant, const uint8_t *map, size_t map_length,
                               const uint32_t *atlas, size_t atlas_length, const uint8_t *zones, size_t zones_length,
                               uint32_t *hits, size_t hits_length, uint8_t *text, size_t text_length, uint8_t *out,
                               size_t out_length, uint64_t reply[USKELZAR_REPLY_WORDS]);

/* Whoever tells an hour by uskelzar_lookup, uskelzar_local_time and uskelzar_civil_time without a slip asks by himself what a slip asks: a fix on the globe, USKELZAR_END_WHOLE,
 * USKELZAR_SCALE_UNIX (a clock shown at an instant of another scale is wrong by the leap seconds between them), and one offset of all matches. */

/* ---- the same with fewer words: for each function of nine parameters or more, in both parts, a form of it that takes structs.
 * A struct has the lists that belong together: pointers and lengths and nothing else, under the names that the functions give them, so that what is said there of a
 * list, how long it must be too, is said of the member. It is only read, serves any number of calls, and may be gone after each: none is kept.
 * Each form hands all of it on, as it is, to the one function that its paragraph names, and decides nothing: it returns, answers, writes and refuses what that one does. The
 * archives do not have them: they are compiled where they are called, and no proof speaks of them; host/tests/header.rs holds each against its function. */

/* A file to look up in. */
struct uskelzar_file {
    const uint8_t *file;
    size_t file_length;
};

/* Its index: the words that uskelzar_build_index gave. */
struct uskelzar_index {
    const uint32_t *index;
    size_t index_length;
};

/* Its atlas: the words that uskelzar_build_atlas gave. */
struct uskelzar_atlas {
    const uint32_t *atlas;
    size_t atlas_length;
};

/* Many fixes: fix i is lats[i], lons[i]. */
struct uskelzar_fixes {
    const float *lats;
    size_t lats_length;
    const float *lons;
    size_t lons_length;
};

/* What a lookup writes: the matches, and their fields or their description. */
struct uskelzar_matches {
    uint32_t *hits;
    size_t hits_length;
    uint8_t *text;
    size_t text_length;
};

/* uskelzar_lookup: the zones that hold a fix. */
static inline uint8_t uskelzar_file_lookup(const struct uskelzar_file *map, float lat, float lon, bool asked,
                                           const struct uskelzar_matches *found, uint64_t reply[USKELZAR_REPLY_WORDS])
{
    return uskelzar_lookup(map->file, map->file_length, lat, lon, asked, found->hits, found->hits_length, found->text,
                           found->text_length, reply);
}

/* uskelzar_lookup_strict: the same, and a number that the file's end cuts is refused. */
static inline uint8_t uskelzar_file_lookup_strict(const struct uskelzar_file *map, float lat, float lon, bool asked,
                                                  const struct uskelzar_matches *found, uint64_t reply[USKELZAR_REPLY_WORDS])
{
    return uskelzar_lookup_strict(map->file, map->file_length, lat, lon, asked, found->hits, found->hits_length, found->text,
                                  found->text_length, reply);
}

/* uskelzar_lookup_many: the zones that hold each of many fixes. */
static inline uint8_t uskelzar_file_lookup_many(const struct uskelzar_file *map, const struct uskelzar_fixes *fixes, bool asked,
                                                const struct uskelzar_matches *found, uint32_t *answers, size_t answers_length,
                                                uint64_t reply[USKELZAR_REPLY_WORDS])
{
    return uskelzar_lookup_many(map->file, map->file_length, fixes->lats, fixes->lats_length, fixes->lons, fixes->lons_length,
                                asked, found->hits, found->hits_length, found->text, found->text_length, answers,
                                answers_length, reply);
}

/* uskelzar_lookup_through: the zones that hold a fix, through an index that is not looked at first. */
static inline uint8_t uskelzar_file_lookup_through(const struct uskelzar_file *map, const struct uskelzar_index *index,
                                                   float lat, float lon, bool asked, const struct uskelzar_matches *found,
                                                   uint64_t reply[USKELZAR_REPLY_WORDS])
{
    return uskelzar_lookup_through(map->file, map->file_length, index->index, index->index_length, lat, lon, asked, found->hits,
                                   found->hits_length, found->text, found->text_length, reply);
}

/* uskelzar_lookup_indexed: the same, after a comparison. */
static inline uint8_t uskelzar_file_lookup_indexed(const struct uskelzar_file *map, const struct uskelzar_index *index,
                                                   float lat, float lon, bool asked, const struct uskelzar_matches *found,
                                                   uint64_t reply[USKELZAR_REPLY_WORDS])
{
    return uskelzar_lookup_indexed(map->file, map->file_length, index->index, index->index_length, lat, lon, asked, found->hits,
                                   found->hits_length, found->text, found->text_length, reply);
}

/* uskelzar_lookup_atlas: the zones that hold a fix, through an atlas that is not looked at first. */
static inline uint8_t uskelzar_file_lookup_atlas(const struct uskelzar_file *map, const struct uskelzar_atlas *atlas, float lat,
                                                 float lon, bool asked, const struct uskelzar_matches *found,
                                                 uint64_t reply[USKELZAR_REPLY_WORDS])
{
    return uskelzar_lookup_atlas(map->file, map->file_length, atlas->atlas, atlas->atlas_length, lat, lon, asked, found->hits,
                                 found->hits_length, found->text, found->text_length, reply);
}

/* uskelzar_simple_lookup: the zone that holds a fix, as one text. */
static inline uint8_t uskelzar_file_simple_lookup(const struct uskelzar_file *map, float lat, float lon,
                                                  const struct uskelzar_matches *found, uint64_t reply[USKELZAR_REPLY_WORDS])
{
    return uskelzar_simple_lookup(map->file, map->file_length, lat, lon, found->hits, found->hits_length, found->text,
                                  found->text_length, reply);
}

/* uskelzar_simple_atlas: the same through an atlas. */
static inline uint8_t uskelzar_file_simple_atlas(const struct uskelzar_file *map, const struct uskelzar_atlas *atlas, float lat,
                                                 float lon, const struct uskelzar_matches *found,
                                                 uint64_t reply[USKELZAR_REPLY_WORDS])
{
    return uskelzar_simple_atlas(map->file, map->file_length, atlas->atlas, atlas->atlas_length, lat, lon, found->hits,
                                 found->hits_length, found->text, found->text_length, reply);
}

/* uskelzar_many_atlas: the zones that hold each of many fixes, through an atlas. */
static inline uint8_t uskelzar_file_many_atlas(const struct uskelzar_file *map, const struct uskelzar_atlas *atlas,
                                               const struct uskelzar_fixes *fixes, bool asked,
                                               const struct uskelzar_matches *found, uint32_t *answers, size_t answers_length,
                                               uint64_t reply[USKELZAR_REPLY_WORDS])
{
    return uskelzar_many_atlas(map->file, map->file_length, atlas->atlas, atlas->atlas_length, fixes->lats, fixes->lats_length,
                               fixes->lons, fixes->lons_length, asked, found->hits, found->hits_length, found->text,
                               found->text_length, answers, answers_length, reply);
}

/* What a printer goes by: a map of time zones, and the bundle of their TZif files. */
struct uskelzar_printer {
    const uint8_t *map;
    size_t map_length;
    const uint8_t *zones;
    size_t zones_length;
};

/* Where the bytes go that are written: a slip's line, a border, or a file. Of an add and a replacement it is a list to work in. */
struct uskelzar_output {
    uint8_t *out;
    size_t out_length;
};

/* uskelzar_slip: the line that a request asks for. */
static inline uint8_t uskelzar_printer_slip(const struct uskelzar_printer *printer, const uint8_t *request, size_t request_length,
                                            const struct uskelzar_matches *found, const struct uskelzar_output *output,
                                            uint64_t reply[USKELZAR_REPLY_WORDS])
{
    return uskelzar_slip(request, request_length, printer->map, printer->map_length, printer->zones, printer->zones_length,
                         found->hits, found->hits_length, found->text, found->text_length, output->out, output->out_length,
                         reply);
}

/* uskelzar_slip_at: the line at a fix and an instant. */
static inline uint8_t uskelzar_printer_slip_at(const struct uskelzar_printer *printer, float lat, float lon, int64_t instant,
                                               const struct uskelzar_matches *found, const struct uskelzar_output *output,
                                               uint64_t reply[USKELZAR_REPLY_WORDS])
{
    return uskelzar_slip_at(lat, lon, instant, printer->map, printer->map_length, printer->zones, printer->zones_length,
                            found->hits, found->hits_length, found->text, found->text_length, output->out, output->out_length,
                            reply);
}

/* uskelzar_slip_atlas: the line that a request asks for, through an atlas of the map. */
static inline uint8_t uskelzar_printer_slip_atlas(const struct uskelzar_printer *printer, const struct uskelzar_atlas *atlas,
                                                  const uint8_t *request, size_t request_length,
                                                  const struct uskelzar_matches *found, const struct uskelzar_output *output,
                                                  uint64_t reply[USKELZAR_REPLY_WORDS])
{
    return uskelzar_slip_atlas(request, request_length, printer->map, printer->map_length, atlas->atlas, atlas->atlas_length,
                               printer->zones, printer->zones_length, found->hits, found->hits_length, found->text,
                               found->text_length, output->out, output->out_length, reply);
}

/* uskelzar_slip_at_atlas: the line at a fix and an instant, through an atlas of the map. */
static inline uint8_t uskelzar_printer_slip_at_atlas(const struct uskelzar_printer *printer, const struct uskelzar_atlas *atlas,
                                                     float lat, float lon, int64_t instant,
                                                     const struct uskelzar_matches *found,
                                                     const struct uskelzar_output *output,
                                                     uint64_t reply[USKELZAR_REPLY_WORDS])
{
    return uskelzar_slip_at_atlas(lat, lon, instant, printer->map, printer->map_length, atlas->atlas, atlas->atlas_length,
                                  printer->zones, printer->zones_length, found->hits, found->hits_length, found->text,
                                  found->text_length, output->out, output->out_length, reply);
}

/* ======== The office's functions: libuskelzar-office.a
 * What is done once for a file: borders are written, files built, held and salvaged; an index and an atlas are built, and worked out again. */

/* ---- the words of the office's replies */
enum { USKELZAR_WRITE_LENGTH = 0, USKELZAR_BUILD_LENGTH = 0, USKELZAR_FINISH_LENGTH = 0 };
enum {                                /* the totals of a builder that holds yards */
    USKELZAR_TOTALS_TABLE = 0,        /* bytes of the table */
    USKELZAR_TOTALS_METADATA = 1,     /* bytes of the metadata */
    USKELZAR_TOTALS_DATA = 2,         /* bytes of the data, the zero byte included: 1 with no yards */
    USKELZAR_TOTALS_YARDS = 3,
    USKELZAR_TOTALS_GREATEST = 4      /* the greatest of the yards' lower latitudes, 0 with no yards: the bits of an int32_t */
};
enum { USKELZAR_INDEX_USED = 0 };     /* words of an index */
enum {
    USKELZAR_SALVAGE_LENGTH = 0,      /* the new file's bytes */
    USKELZAR_SALVAGE_LINES = 1,       /* lines of the list */
    USKELZAR_SALVAGE_KEPT = 2         /* entries in the new file */
};

/* ---- a piece of the writer: five words; words left over are no piece */
enum {
    USKELZAR_PIECE_START = 0,         /* where its run starts in the earlier data */
    USKELZAR_PIECE_BYTES = 1,         /* the run's length */
    USKELZAR_PIECE_DIRECTION = 2,     /* 0 forward, others backward */
    USKELZAR_PIECE_FIRST = 3,         /* the first move that the run stands for */
    USKELZAR_PIECE_COUNT = 4,         /* how many moves */
    USKELZAR_PIECE_WORDS = 5
};

/* ---- a yard of the builder: four words, how many items of each list are its own; words left over are no yard */
enum {
    USKELZAR_YARD_LATS = 0,
    USKELZAR_YARD_LONS = 1,
    USKELZAR_YARD_PIECES = 2,
    USKELZAR_YARD_VALUES = 3,         /* as many as there are names */
    USKELZAR_YARD_WORDS = 4,
    USKELZAR_MOST_YARDS = 4096,
    USKELZAR_MOST_NAMES = 255
};

/* ---- how long the builder's working lists must be, in elements: for so many yards and names, so many bytes of values (of all yards,
 * names and notice left out) and an output of so many bytes. Longer ones are as good. */
#define USKELZAR_BUILD_FIELDS(yards, names) ((size_t)(yards) * (size_t)(names))
#define USKELZAR_BUILD_STARTS(yards, names) (USKELZAR_BUILD_FIELDS(yards, names) + 1)
#define USKELZAR_BUILD_KEYS(yards, names) ((size_t)(yards) * ((names) > 1 ? (size_t)(names) : 1)) /* and spare */
#define USKELZAR_BUILD_KEPT(yards, names) USKELZAR_BUILD_FIELDS(yards, names)                     /* and words */
#define USKELZAR_BUILD_HELD(value_bytes) (value_bytes)
#define USKELZAR_BUILD_PLACES(yards) (2 * (size_t)(yards))
#define USKELZAR_BUILD_BOXES(yards) (4 * (size_t)(yards))
#define USKELZAR_BUILD_BYTES(out_length) (out_length)

/* ---- the state of a builder that holds yards: so many words, which mean nothing to anyone else */
enum { USKELZAR_STATE_WORDS = 14 };

/* ---- how long its own lists must be, in elements: for so many yards and names, so many bytes of all texts (names, notice and values) and so many of data. They may
 * be longer, and as long as the most that is ever to be held; the same lists are lent to each call. */
#define USKELZAR_HELD_BOXES(yards) (4 * (size_t)(yards))
#define USKELZAR_HELD_BORDERS(yards) ((size_t)(yards))
#define USKELZAR_HELD_LENGTHS(yards, names) ((size_t)(names) + 1 + USKELZAR_BUILD_FIELDS(yards, names))
#define USKELZAR_HELD_TEXTS(text_bytes) (text_bytes)
#define USKELZAR_HELD_BYTES(data_bytes) (data_bytes)
/* ---- and its notes, of uskelzar_add alone: for the yards held after the call. They may be longer too. */
#define USKELZAR_NOTE_MARKS(yards, names) (USKELZAR_BUILD_FIELDS(yards, names) + 1)
#define USKELZAR_NOTE_CHAINS(yards, names) (4096 + USKELZAR_BUILD_FIELDS(yards, names))
#define USKELZAR_NOTE_GROUPS(yards) (4096 + (size_t)(yards))
#define USKELZAR_NOTE_BEGINS(yards) ((size_t)(yards))
/* The lists to work in are USKELZAR_BUILD_STARTS to USKELZAR_BUILD_PLACES, for the yards held after the call; `out` of add is as long as the data with the new border, and of
 * replace as long as all texts were. So of data never over n bytes, n bytes of `bytes` and `out` are enough. */

/* ---- a line of salvage's list: two words */
enum { USKELZAR_DROPPED_ENTRY = 0, USKELZAR_DROPPED_REASON = 1, USKELZAR_DROPPED_WORDS = 2 };

/* ---- why salvage dropped an entry: the first reason met; or 12, 13, 14, 15 or 31, as lookup_strict has them */
enum uskelzar_reason {
    USKELZAR_REASON_ENTRY = 70,       /* one of its six numbers is not there; no later entry can be found */
    USKELZAR_REASON_BORDER = 71,      /* its border fails */
    USKELZAR_REASON_STRING = 72,      /* one of its strings, length included, is not wholly in the metadata section */
    USKELZAR_REASON_REST = 73         /* no entry: behind one whose numbers can't be read, what follows it is unknown */
};

/* A tile index beside a file: for each of 32 by 64 tiles the entries whose box meets it, so that a lookup reads only those. It keeps the header and the
 * table of its file, and goes with every file that has the same length, header and table.
 * Answers: the words used.
 * index: the index, 32 bits a word, for this machine's memory; a file of it is a copy of the words.
 * Refuses: what open refuses but for its 18; then 16, 34 over the whole table, 35 last. */
uint8_t uskelzar_build_index(const uint8_t *file, size_t file_length, uint32_t *index, size_t index_length,
                             uint64_t reply[USKELZAR_REPLY_WORDS]);

/* Whether words are the index of this file, whoever wrote them: each word is worked out again and compared, without room for them. Ask it of words from a disk or
 * from another program. The words are those that uskelzar_build_index, lent as many, leaves for this file: the index, and zeros behind it. Through such words
 * uskelzar_lookup_through and uskelzar_lookup_indexed are uskelzar_lookup.
 * Answers: no value; 0 says that they are.
 * Refuses: what open refuses but for its 18; then 16, 34 over the whole table, 36 last: for any other words, and for too few. */
uint8_t uskelzar_is_index(const uint8_t *file, size_t file_length, const uint32_t *index, size_t index_length,
                          uint64_t reply[USKELZAR_REPLY_WORDS]);

/* The atlas of a file: its index, and behind it marks along the borders of more than 256 edges, so that a lookup passes over stretches of 128 edges whose box does
 * not hold the fix. As an index it needs a table that is in order. A border that can't be marked has none, and is read whole.
 * Answers: how many words are used.
 * atlas: the words, zeros behind them.
 * Refuses: as uskelzar_build_index. */
uint8_t uskelzar_build_atlas(const uint8_t *file, size_t file_length, uint32_t *atlas, size_t atlas_length,
                             uint64_t reply[USKELZAR_REPLY_WORDS]);

/* Whether words are the atlas of this file, whoever wrote them: each word is worked out again and compared, without room for them. They are those that
 * uskelzar_build_atlas, lent as many, leaves for this file; through such words uskelzar_lookup_atlas is uskelzar_lookup.
 * Answers: no value; 0 says that they are.
 * Refuses: 36, for any other words and any other file. */
uint8_t uskelzar_is_atlas(const uint8_t *file, size_t file_length, const uint32_t *atlas, size_t atlas_length,
                          uint64_t reply[USKELZAR_REPLY_WORDS]);

/* The bytes of a border, version 0 or 1, from its points on the file's grid: lats[i] and lons[i]; it closes by itself.
 * `earlier` is the data section up to the border's first byte. For version 1, `pieces` says which moves to borrow from it,
 * at most 16 pieces; each is checked.
 * Answers: the border's length.
 * out:  the border.
 * Refuses: 1, 5, 19, 20, 21, 22, 23, 24, checked in this order, each over the whole border. */
uint8_t uskelzar_write_border(uint8_t version, const int32_t *lats, size_t lats_length, const int32_t *lons,
                              size_t lons_length, const uint32_t *pieces, size_t pieces_length, const uint8_t *earlier,
                              size_t earlier_length, uint8_t *out, size_t out_length,
                              uint64_t reply[USKELZAR_REPLY_WORDS]);

/* A whole file from yards: borders with pieces, and a value for each name. It holds a table of the yards in order of lower latitude, those of one
 * latitude as they came; one record for all yards with equal values; and their borders as they came, behind one zero byte. A nonempty value that
 * is found twice in the records is stored once. Opened, it gives type, version, precision, names and notice back; looked up, each yard's border.
 * yards:   four words a yard: how many latitudes, longitudes, pieces (of five words) and values are its own.
 * lats, lons: the points of all yards, one yard after the other, on the file's grid. A step of it is 90 / 2^(precision - 1) degrees of latitude and
 *          180 / 2^(precision - 1) of longitude. Inside a border with equal values one that turns the other way is a hole.
 * pieces:  as for write_border, yard by yard; `start` counts from the data section's first byte, which is the zero byte.
 * lengths: how many bytes each text has: those of the names, of the notice, then of the values, yard by yard and in the order of the names.
 * texts:   the bytes of all of them, one after the other. Items of a list behind those that are counted are not looked at.
 * starts to bytes: lists to work in, whatever they hold; zeros afterwards. How long each must be: USKELZAR_BUILD_.. above. They must be apart
 *          from each other and from `out`.
 * Answers: the file's length.
 * out:     the file.
 * Refuses: for each yard in turn 19, 20, 21, 22, each over its whole border; then 25, 26, 27, each over everything; then for each yard in turn 23
 *          (detail: the piece's index in its yard) and 28 for the data so far, which is the zero byte and the borders up to this one, against
 *          `out`, `bytes` and 1 GiB; then 28 for the working lists and the whole file. A list that ends before what its yards count: 19 for
 *          points, 23 for pieces, 25 for lengths, 26 for bytes of text. */
uint8_t uskelzar_build(uint8_t type, uint8_t version, uint8_t precision, uint32_t names, const uint32_t *yards, size_t yards_length,
                       const int32_t *lats, size_t lats_length, const int32_t *lons, size_t lons_length, const uint32_t *pieces,
                       size_t pieces_length, const uint32_t *lengths, size_t lengths_length, const uint8_t *texts,
                       size_t texts_length, uint32_t *starts, size_t starts_length, uint64_t *keys, size_t keys_length,
                       uint64_t *spare, size_t spare_length, uint32_t *kept, size_t kept_length, uint8_t *held,
                       size_t held_length, uint32_t *words, size_t words_length, uint32_t *places, size_t places_length,
                       int32_t *boxes, size_t boxes_length, uint8_t *bytes, size_t bytes_length, uint8_t *out,
                       size_t out_length, uint64_t reply[USKELZAR_REPLY_WORDS]);

/* A builder that holds yards: begin one, add yards, take the last one away, put another text in the place of a value, take all yards away; and at any time the file of the yards
 * that are held. After every call the totals, in `reply`, are those of that file: so what is still to fit is known before it is written.
 * state:   the builder's numbers. uskelzar_begin writes them; lend them to each later call as they are. uskelzar_finish only reads them.
 * boxes to bytes: the builder's own lists, in which it holds its yards. uskelzar_begin writes them whole, whatever they held; lend the same five to each later call, and write to
 *          none between the calls, but for zeros that you may put behind one to make it longer. How long each must be: USKELZAR_HELD_.. above. Behind what is held they are zero.
 * starts to places, and `out` of add and replace: lists to work in, whatever they hold; zeros afterwards, but see uskelzar_add. A list that is too short is 28, last.
 * A refused call changes neither state nor lists, nor notes that an add has left. Numbers that no call has made with these lists are refused 28 where they do not fit the lists (a drop: 29), and else answered
 * with some totals or other, or refused with a number of the call; nothing outside the lists is touched.
 *
 * Begins a builder for files of at most `room` bytes.
 * sizes:   how many bytes each text has: those of the names, of the notice.
 * strings: the bytes of all of them, one after the other.
 * Answers: the totals of no yards: 0, 0, 1, 0, 0.
 * Refuses: 25 for over 255 names or fewer sizes; 26, 27; 28 only for a list that is too short. State and lists are then zero, and such a state is refused by every other call, 28, a
 *          drop 29. */
uint8_t uskelzar_begin(uint64_t state[USKELZAR_STATE_WORDS], uint8_t type, uint8_t version, uint8_t precision, uint32_t names,
                       size_t room, const uint32_t *sizes, size_t sizes_length, const uint8_t *strings, size_t strings_length,
                       int32_t *boxes, size_t boxes_length, uint32_t *borders, size_t borders_length, uint32_t *lengths,
                       size_t lengths_length, uint8_t *texts, size_t texts_length, uint8_t *bytes, size_t bytes_length,
                       uint64_t reply[USKELZAR_REPLY_WORDS]);

/* Adds a yard, behind those that are held.
 * lats, lons, pieces: its border, as for uskelzar_build; a piece's `start` counts from the data's first byte, the zero byte, and may lie in any border that is held.
 * sizes, values: how many bytes each of its values has, and their bytes.
 * marks to begins: the builder's notes, with which an add need not sum all yards afresh. Lend the same four to each add of one builder, as the last add left them, and write to none between
 *          the calls, but for zeros that you may put behind one to make it longer; what they hold before the first add does not matter, and no other call takes them. How long each must
 *          be: USKELZAR_NOTE_.. above. With words that no add has left there the totals may be wrong until a call sums afresh, and the file is then not promised; nothing outside the lists
 *          is touched.
 *          An add that does not sum afresh costs what its own yard does, a look at the box of each held one, and for each of its values, and for all of them together, a walk along a chain
 *          of notes: there are 4,096 chains, however many yards are held, so of 255 names and 4,000 yards each has some 250 values. How long the lists are does not matter then.
 *          The yards are summed afresh, and noted anew, by the first add, by the first behind any other change of the builder, and, where no held yard has all values of the new one, in
 *          three cases: a value of it, not empty, stands in exactly one place of the records; one stands nowhere in them and twice in the yard; or the records have under 16,128 bytes and the
 *          metadata with the new record over 16,128, the same with 2,096,896 and with 268,435,200. Within such bounds words of unequal lengths may stand in the records, so every such add
 *          sums afresh, though most change the length of none.
 * starts to places: zero afterwards, or all as they were lent: lent zero, they are zero.
 * out:     no more of it is used than a border of so many points can take, its first 170 * points + 400 bytes (of over 65,536 points, those of so many): they are zero afterwards, the rest
 *          is as it was.
 * Answers: the totals with it.
 * Refuses: 19, 20, 21, 22, each over the whole border; 25 for a 4,097th yard, or more or fewer sizes than names; 26; 23 (detail: the piece's index); 28 for the data against
 *          the builder's room, `bytes`, `out` and 1 GiB, then for the whole file against its room and 1 GiB, and for every other list. So it is refused as uskelzar_build would
 *          refuse the held yards and this one, if `out` is as long as the data held; in a shorter one 23 comes before that 28. */
uint8_t uskelzar_add(uint64_t state[USKELZAR_STATE_WORDS], const int32_t *lats, size_t lats_length, const int32_t *lons,
                     size_t lons_length, const uint32_t *pieces, size_t pieces_length, const uint32_t *sizes,
                     size_t sizes_length, const uint8_t *values, size_t values_length, int32_t *boxes, size_t boxes_length,
                     uint32_t *borders, size_t borders_length, uint32_t *lengths, size_t lengths_length, uint8_t *texts,
                     size_t texts_length, uint8_t *bytes, size_t bytes_length, uint32_t *marks, size_t marks_length,
                     uint32_t *chains, size_t chains_length, uint32_t *groups, size_t groups_length, uint32_t *begins,
                     size_t begins_length, uint32_t *starts, size_t starts_length, uint64_t *keys, size_t keys_length,
                     uint64_t *spare, size_t spare_length, uint32_t *kept, size_t kept_length, uint8_t *held,
                     size_t held_length, uint32_t *words, size_t words_length, uint32_t *places, size_t places_length,
                     uint8_t *out, size_t out_length, uint64_t reply[USKELZAR_REPLY_WORDS]);

/* Takes the yard away that was added last.
 * Answers: the totals without it. A text that two records shared may now stand in one alone, so metadata and file can be longer than before, and longer than the builder's room: then
 *          adds and replacements are refused 28 until the file fits again.
 * Refuses: 29 where there is no yard; 28 only for a list to work in that is too short. */
uint8_t uskelzar_drop_last(uint64_t state[USKELZAR_STATE_WORDS], int32_t *boxes, size_t boxes_length, uint32_t *borders,
                           size_t borders_length, uint32_t *lengths, size_t lengths_length, uint8_t *texts, size_t texts_length,
                           uint8_t *bytes, size_t bytes_length, uint32_t *starts, size_t starts_length, uint64_t *keys,
                           size_t keys_length, uint64_t *spare, size_t spare_length, uint32_t *kept, size_t kept_length,
                           uint8_t *held, size_t held_length, uint32_t *words, size_t words_length, uint32_t *places,
                           size_t places_length, uint64_t reply[USKELZAR_REPLY_WORDS]);

/* Puts a text in the place of a yard's value. Yards and fields count from 0, yards in the order in which they were added.
 * Answers: the totals with it.
 * Refuses: 30 where there is no such yard or field; 26; 28 for the file against the builder's room and 1 GiB, and for a list that is too short. */
uint8_t uskelzar_replace(uint64_t state[USKELZAR_STATE_WORDS], uint32_t yard, uint32_t field, const uint8_t *text,
                         size_t text_length, int32_t *boxes, size_t boxes_length, uint32_t *borders, size_t borders_length,
                         uint32_t *lengths, size_t lengths_length, uint8_t *texts, size_t texts_length, uint8_t *bytes,
                         size_t bytes_length, uint32_t *starts, size_t starts_length, uint64_t *keys, size_t keys_length,
                         uint64_t *spare, size_t spare_length, uint32_t *kept, size_t kept_length, uint8_t *held,
                         size_t held_length, uint32_t *words, size_t words_length, uint32_t *places, size_t places_length,
                         uint8_t *out, size_t out_length, uint64_t reply[USKELZAR_REPLY_WORDS]);

/* Takes all yards away: the builder is as it was begun.
 * Answers: the totals of no yards.
 * Refuses: nothing of a builder that calls have made. */
uint8_t uskelzar_clear(uint64_t state[USKELZAR_STATE_WORDS], int32_t *boxes, size_t boxes_length, uint32_t *borders,
                       size_t borders_length, uint32_t *lengths, size_t lengths_length, uint8_t *texts, size_t texts_length,
                       uint8_t *bytes, size_t bytes_length, uint64_t reply[USKELZAR_REPLY_WORDS]);

/* The file of the yards that are held: what uskelzar_build would write of them. The builder stays as it is.
 * Answers: the file's length.
 * out:     the file, and zeros behind it; on a refusal zeros alone, whatever the state.
 * Refuses: 25 where there are no yards; 28 for the file against `out`, which may be shorter or longer than the builder's room, and 1 GiB, and for a list to work in. */
uint8_t uskelzar_finish(const uint64_t state[USKELZAR_STATE_WORDS], const int32_t *boxes, size_t boxes_length,
                        const uint32_t *borders, size_t borders_length, const uint32_t *lengths, size_t lengths_length,
                        const uint8_t *texts, size_t texts_length, const uint8_t *bytes, size_t bytes_length, uint32_t *starts,
                        size_t starts_length, uint64_t *keys, size_t keys_length, uint64_t *spare, size_t spare_length,
                        uint32_t *kept, size_t kept_length, uint8_t *held, size_t held_length, uint32_t *words,
                        size_t words_length, uint32_t *places, size_t places_length, uint8_t *out, size_t out_length,
                        uint64_t reply[USKELZAR_REPLY_WORDS]);

/* A new file with what is left of a damaged one: each entry whose six numbers, border and strings all read strictly and whose strings, lengths
 * included, lie wholly in the metadata section, in the old order.
 * The first seven bytes and the metadata section stay as they are; names and notice go inline, and open and open_strict give of the new file what
 * open_strict gives of the old one, for any room; each kept entry has its old box and metadata id,
 * and its border is written without borrowed runs, move by move, so that its verdict and distance at every fix are the old ones.
 * Answers: the new file's length, the list's lines, the entries kept.
 * dropped: two words a line: the entry's number, from 0, and the first reason met (enum uskelzar_reason, or 12, 13, 14, 15, 31). Behind an entry
 *       whose numbers can't be read a last line has the next number and 73.
 * out:  the new file.
 * Refuses: what open_strict refuses but for its 18; then 26; then, every entry judged, 28 for the file against `out` and 1 GiB or for the list
 *       against `dropped`; 32 last. */
uint8_t uskelzar_salvage(const uint8_t *file, size_t file_length, uint32_t *dropped, size_t dropped_length, uint8_t *out,
                         size_t out_length, uint64_t reply[USKELZAR_REPLY_WORDS]);

/* ---- the same with fewer words, as in the first part */

/* A border: its points on the file's grid, and the words of its pieces. With none of these `pieces_length` is 0, and `pieces` still not null. */
struct uskelzar_border {
    const int32_t *lats;
    size_t lats_length;
    const int32_t *lons;
    size_t lons_length;
    const uint32_t *pieces;
    size_t pieces_length;
};

/* uskelzar_write_border: the bytes of a border. */
static inline uint8_t uskelzar_border_write(uint8_t version, const struct uskelzar_border *border, const uint8_t *earlier,
                                            size_t earlier_length, const struct uskelzar_output *output,
                                            uint64_t reply[USKELZAR_REPLY_WORDS])
{
    return uskelzar_write_border(version, border->lats, border->lats_length, border->lons, border->lons_length, border->pieces,
                                 border->pieces_length, earlier, earlier_length, output->out, output->out_length, reply);
}

/* The lists that both builders work in, as long as USKELZAR_BUILD_STARTS to USKELZAR_BUILD_PLACES say. */
struct uskelzar_work {
    uint32_t *starts;
    size_t starts_length;
    uint64_t *keys;
    size_t keys_length;
    uint64_t *spare;
    size_t spare_length;
    uint32_t *kept;
    size_t kept_length;
    uint8_t *held;
    size_t held_length;
    uint32_t *words;
    size_t words_length;
    uint32_t *places;
    size_t places_length;
};

/* All yards of a file, with its names and its notice. */
struct uskelzar_yards {
    const uint32_t *yards;
    size_t yards_length;
    const int32_t *lats;
    size_t lats_length;
    const int32_t *lons;
    size_t lons_length;
    const uint32_t *pieces;
    size_t pieces_length;
    const uint32_t *lengths;
    size_t lengths_length;
    const uint8_t *texts;
    size_t texts_length;
};

/* What uskelzar_build works in besides, as long as USKELZAR_BUILD_BOXES and USKELZAR_BUILD_BYTES say. */
struct uskelzar_boxes {
    int32_t *boxes;
    size_t boxes_length;
    uint8_t *bytes;
    size_t bytes_length;
};

/* uskelzar_build: a whole file from yards. */
static inline uint8_t uskelzar_yards_build(uint8_t type, uint8_t version, uint8_t precision, uint32_t names,
                                           const struct uskelzar_yards *all, const struct uskelzar_work *work,
                                           const struct uskelzar_boxes *boxes, const struct uskelzar_output *output,
                                           uint64_t reply[USKELZAR_REPLY_WORDS])
{
    return uskelzar_build(type, version, precision, names, all->yards, all->yards_length, all->lats, all->lats_length,
                          all->lons, all->lons_length, all->pieces, all->pieces_length, all->lengths, all->lengths_length,
                          all->texts, all->texts_length, work->starts, work->starts_length, work->keys, work->keys_length,
                          work->spare, work->spare_length, work->kept, work->kept_length, work->held, work->held_length,
                          work->words, work->words_length, work->places, work->places_length, boxes->boxes, boxes->boxes_length,
                          boxes->bytes, boxes->bytes_length, output->out, output->out_length, reply);
}

/* A builder that holds yards: its state, of USKELZAR_STATE_WORDS words, and its own lists, as long as USKELZAR_HELD_.. say. Take the same for each call. */
struct uskelzar_builder {
    uint64_t *state;
    int32_t *boxes;
    size_t boxes_length;
    uint32_t *borders;
    size_t borders_length;
    uint32_t *lengths;
    size_t lengths_length;
    uint8_t *texts;
    size_t texts_length;
    uint8_t *bytes;
    size_t bytes_length;
};

/* What it is begun with: how many bytes the names and the notice have, and their bytes. */
struct uskelzar_names {
    const uint32_t *sizes;
    size_t sizes_length;
    const uint8_t *strings;
    size_t strings_length;
};

/* What is added to it: a border, how many bytes each of its values has, and their bytes. */
struct uskelzar_yard {
    struct uskelzar_border border;
    const uint32_t *sizes;
    size_t sizes_length;
    const uint8_t *values;
    size_t values_length;
};

/* What it notes, of adds alone, as long as USKELZAR_NOTE_.. say. Take the same for each add. */
struct uskelzar_notes {
    uint32_t *marks;
    size_t marks_length;
    uint32_t *chains;
    size_t chains_length;
    uint32_t *groups;
    size_t groups_length;
    uint32_t *begins;
    size_t begins_length;
};

/* uskelzar_begin: a builder without yards. */
static inline uint8_t uskelzar_builder_begin(const struct uskelzar_builder *builder, uint8_t type, uint8_t version,
                                             uint8_t precision, uint32_t names, size_t room, const struct uskelzar_names *front,
                                             uint64_t reply[USKELZAR_REPLY_WORDS])
{
    return uskelzar_begin(builder->state, type, version, precision, names, room, front->sizes, front->sizes_length,
                          front->strings, front->strings_length, builder->boxes, builder->boxes_length, builder->borders,
                          builder->borders_length, builder->lengths, builder->lengths_length, builder->texts,
                          builder->texts_length, builder->bytes, builder->bytes_length, reply);
}

/* uskelzar_add: a yard behind those that are held. */
static inline uint8_t uskelzar_builder_add(const struct uskelzar_builder *builder, const struct uskelzar_yard *yard,
                                           const struct uskelzar_notes *notes, const struct uskelzar_work *work,
                                           const struct uskelzar_output *output, uint64_t reply[USKELZAR_REPLY_WORDS])
{
    return uskelzar_add(builder->state, yard->border.lats, yard->border.lats_length, yard->border.lons,
                        yard->border.lons_length, yard->border.pieces, yard->border.pieces_length, yard->sizes,
                        yard->sizes_length, yard->values, yard->values_length, builder->boxes, builder->boxes_length,
                        builder->borders, builder->borders_length, builder->lengths, builder->lengths_length, builder->texts,
                        builder->texts_length, builder->bytes, builder->bytes_length, notes->marks, notes->marks_length,
                        notes->chains, notes->chains_length, notes->groups, notes->groups_length, notes->begins,
                        notes->begins_length, work->starts, work->starts_length, work->keys, work->keys_length, work->spare,
                        work->spare_length, work->kept, work->kept_length, work->held, work->held_length, work->words,
                        work->words_length, work->places, work->places_length, output->out, output->out_length, reply);
}

/* uskelzar_drop_last: without the yard that was added last. */
static inline uint8_t uskelzar_builder_drop_last(const struct uskelzar_builder *builder, const struct uskelzar_work *work,
                                                 uint64_t reply[USKELZAR_REPLY_WORDS])
{
    return uskelzar_drop_last(builder->state, builder->boxes, builder->boxes_length, builder->borders, builder->borders_length,
                              builder->lengths, builder->lengths_length, builder->texts, builder->texts_length, builder->bytes,
                              builder->bytes_length, work->starts, work->starts_length, work->keys, work->keys_length,
                              work->spare, work->spare_length, work->kept, work->kept_length, work->held, work->held_length,
                              work->words, work->words_length, work->places, work->places_length, reply);
}

/* uskelzar_replace: a text in the place of a yard's value. */
static inline uint8_t uskelzar_builder_replace(const struct uskelzar_builder *builder, uint32_t yard, uint32_t field,
                                               const uint8_t *text, size_t text_length, const struct uskelzar_work *work,
                                               const struct uskelzar_output *output, uint64_t reply[USKELZAR_REPLY_WORDS])
{
    return uskelzar_replace(builder->state, yard, field, text, text_length, builder->boxes, builder->boxes_length,
                            builder->borders, builder->borders_length, builder->lengths, builder->lengths_length,
                            builder->texts, builder->texts_length, builder->bytes, builder->bytes_length, work->starts,
                            work->starts_length, work->keys, work->keys_length, work->spare, work->spare_length, work->kept,
                            work->kept_length, work->held, work->held_length, work->words, work->words_length, work->places,
                            work->places_length, output->out, output->out_length, reply);
}

/* uskelzar_clear: without its yards. */
static inline uint8_t uskelzar_builder_clear(const struct uskelzar_builder *builder, uint64_t reply[USKELZAR_REPLY_WORDS])
{
    return uskelzar_clear(builder->state, builder->boxes, builder->boxes_length, builder->borders, builder->borders_length,
                          builder->lengths, builder->lengths_length, builder->texts, builder->texts_length, builder->bytes,
                          builder->bytes_length, reply);
}

/* uskelzar_finish: the file of the yards that are held. */
static inline uint8_t uskelzar_builder_finish(const struct uskelzar_builder *builder, const struct uskelzar_work *work,
                                              const struct uskelzar_output *output, uint64_t reply[USKELZAR_REPLY_WORDS])
{
    return uskelzar_finish(builder->state, builder->boxes, builder->boxes_length, builder->borders, builder->borders_length,
                           builder->lengths, builder->lengths_length, builder->texts, builder->texts_length, builder->bytes,
                           builder->bytes_length, work->starts, work->starts_length, work->keys, work->keys_length, work->spare,
                           work->spare_length, work->kept, work->kept_length, work->held, work->held_length, work->words,
                           work->words_length, work->places, work->places_length, output->out, output->out_length, reply);
}

#ifdef __cplusplus
}
#endif

#endif
