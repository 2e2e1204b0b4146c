/* The calls of the gas keys, for C and for whatever calls C.
 *
 * Link target/staticlib/libcapi.a, which `tools/build capi` writes for x86-64 Linux: it needs nothing else but memcpy and memset.
 *
 * Every call takes every input and never fails otherwise than by a refusal. What each one answers is proved: crates/capi has the promises,
 * docs/PROMISES.md where they are proved, bindings/c/example.c how the calls are used.
 *
 * UNITS
 *   temperature        thousandths of a kelvin (mK), 200,000 to 2,000,000
 *   gas heat, rest     mg times 0.00001 C.H.U./lb, and so a content
 *   specific content   0.00001 C.H.U./lb
 *   charge             air in parts of 100 g, 1 to 100,000; carbon in moles, hydrogen in moles of atoms, 0 to 50,000 each;
 *                      lean: 32000 carbon + 8000 hydrogen is at most 23186 air
 *   sheet              5,403 numbers, O2, CO2 and H2O of 200 K first, then of 201 K and so on to 2,000 K, in hundredths of C.H.U./lb
 *                      above 0 K, 0 to 200,000. From each kelvin to the next no gas falls and O2 rises by at most four times the rise of air
 *   psi                0.0000001
 *   looks              whole kelvins that the search looked at, in their order; no look is 0, so the unused places are those with 0
 *
 * REFUSALS: `refusal` is 0 or one of the numbers of `enum gaskeys_refusal`. A call gives the first that holds, in the order that stands beside it.
 * `row` is the first bad row of refusals 2 and 3, and 0 where there is none; row 0 is 200 K, and `placed` tells the two apart: 1 where there is a row, else 0.
 * Every field that a case does not have is 0.
 *
 * LISTS are lent as a pointer and a length in elements. A pointer is aligned, and a list that is written overlaps no other list of the same call. A pointer is not NULL
 * unless its length is 0; then it may be, as an empty std::vector of C++ gives it: nothing is read or written through it. A refusal changes no lent place, but for a
 * walk that a step stops and a piece of a sheet with whole rows before the bad one, as said there. Nothing past the given length is read or written, nothing is kept
 * after a call, and there is no state: where the reading of a sheet in pieces stands is a value of the caller's. Any number of threads may call at the same time.
 *
 * STACK: a thread with 48 KB of stack can make every call, and one with 24 KB every call but gaskeys_read_sheet. Measured were 30 KB for gaskeys_read_sheet and at most
 * 14 KB for any other, the thread's own 4 KB among them; bindings/c/limits.c measures it again and passes NULL to every call.
 *
 * VERSION: GASKEYS_VERSION goes up whenever a number, a list or a struct changes its meaning; a further call leaves it as it is. The archive has the symbol
 * gaskeys_version_2, named after the number, and every file that includes this header refers to it: what was compiled with the header of another version does not link.
 * Version 2 rounds a specific content to the nearest whole number; keys of specific contents that were made before are to be made again.
 */
#ifndef GASKEYS_H
#define GASKEYS_H

#include <stddef.h>
#include <stdint.h>

#ifdef __cplusplus
extern "C" {
#endif

/* ---- the version ---- */

#define GASKEYS_VERSION 2

/* Gives 2. */
uint32_t gaskeys_version_2(void);

/* The reference to it, kept also where nothing uses it. */
#define GASKEYS_KEPT __attribute__((used))
#ifdef __has_attribute
#if __has_attribute(retain)
#undef GASKEYS_KEPT
#define GASKEYS_KEPT __attribute__((used, retain))
#endif
#endif
static uint32_t (*const gaskeys_linked_version)(void) GASKEYS_KEPT = gaskeys_version_2;

/* ---- refusals ---- */

enum gaskeys_refusal {
    GASKEYS_SHEET_LENGTH = 1,  /* the sheet list is not 5,403 long */
    GASKEYS_SHEET_TEXT = 2,    /* the sheet text breaks its form; `row` is its first bad row, 0 to 1,800, or 1,801 for bytes past the end */
    GASKEYS_SHEET_ROW = 3,     /* the sheet list has a value over 200,000 or breaks the step rule; `row` is the first bad row */
    GASKEYS_CHARGE = 4,        /* air, carbon or hydrogen outside its limit, or atoms added negative */
    GASKEYS_NOT_LEAN = 5,      /* not lean */
    GASKEYS_TEMPERATURE = 6,   /* temperature outside its range */
    GASKEYS_STEP_HEAT = 7,     /* calorific value or plain heat outside its range */
    GASKEYS_BELOW = 8,         /* target below the value at 200 K */
    GASKEYS_ABOVE = 9,         /* target above the value at 2,000 K */
    GASKEYS_SHORT_LIST = 10,   /* a lent list is too short */
    GASKEYS_NO_NUMBER = 11,    /* the typed answer is blank, infinite or not a number */
    GASKEYS_WINDOW = 12,       /* window or key outside its range */
    GASKEYS_STEPS_LENGTH = 13, /* the list of steps is no multiple of four long, or over 256 */
    GASKEYS_SHORT_BUFFER = 14  /* the buffer is shorter than the text */
};

/* ---- the gas sheet ---- */

typedef struct {
    uint32_t refusal;
    uint32_t row;
    uint32_t placed;
} gaskeys_sheet_told;

/* Reads the text of a sheet into `list`: 1,801 lines, each kelvin, O2, CO2 and H2O parted by one tab and ended by one line feed.
 * It judges the form of the text and not the step rule.
 * Refusals: 1, 2. Leaves: all 5,403 places written, or with a refusal none. */
gaskeys_sheet_told gaskeys_read_sheet(const uint8_t *text, size_t text_length, uint32_t *list, size_t list_length);

/* Where the reading of a sheet that arrives in pieces stands: handed in and told by value, to be kept between the calls and not changed. */
typedef struct {
    uint32_t stage;  /* 0: more is expected; 1: refused with 2 at `row`; 2: accepted */
    uint32_t row;    /* the row at hand, 1,801 once all are read; or the bad row */
    uint32_t field;  /* the field at hand: 0 kelvin, 1 O2, 2 CO2, 3 H2O */
    uint32_t seen;   /* 1 where that field has a digit, else 0 */
    uint32_t value;  /* its number so far */
    uint32_t first;  /* the row's O2, once it is read */
    uint32_t second; /* the row's CO2, once it is read */
} gaskeys_sheet_reading;

typedef struct {
    uint32_t refusal; /* 0 with more 1: more is expected; 0 with more 0: the sheet is accepted */
    uint32_t row;
    uint32_t placed;
    uint32_t more;                 /* 1 where more is expected, else 0 */
    gaskeys_sheet_reading reading; /* to be handed in with the next call */
} gaskeys_piece_told;

/* The reading before any byte has come: all its fields are 0. */
gaskeys_sheet_reading gaskeys_open_reading(void);

/* Reads the next piece of a sheet's text, of any length, also 0; gaskeys_close_reading says that there is no more. However a text is cut, the numbers and the answer, or
 * the refusal and its row, are those that gaskeys_read_sheet gives for it in one. The same list is lent each time, and left alone between the calls.
 * Refusals: 1, 2 (with the piece that has the first byte after which no good sheet can follow). Leaves: the rows whose line feed is in the piece written, also those before
 * a bad row, and all other places as they were; with refusal 1 all places, and the reading too, so that it goes on with the next call. Once the sheet is refused with 2
 * or accepted the reading is at its end: all of its fields but the stage and the bad row are 0, and this call and the next one change nothing and tell the same again.
 * A reading of any other numbers has a meaning too, and is told back in plain ones. A stage over 2 is 1, a `seen` over 1 is 1, a field over 3 is 3. At stage 0 it goes on from
 * its place, whatever that is: from row 1,801 on any byte is refused at that row. A digit follows in field 0 where the number with it begins the digits of 200 + row (0 begins
 * none), in another where the field has no digit yet or its number is not 0, and the number with it is at most 200,000. A tab, in field 3 a line feed, follows in field 0
 * where the number is 200 + row, in another where it has a digit. A line feed writes first, second and value. */
gaskeys_piece_told gaskeys_read_piece(gaskeys_sheet_reading reading, const uint8_t *piece, size_t piece_length, uint32_t *list, size_t list_length);

/* Says that the text has ended: a sheet whose 1,801 rows were read is accepted, and any other is refused at the row at hand. The list is the one that was lent for the
 * pieces; nothing but its length is looked at.
 * Refusals: 1, 2 (the text ends too soon). */
gaskeys_piece_told gaskeys_close_reading(gaskeys_sheet_reading reading, const uint32_t *list, size_t list_length);

/* Judges a sheet list, as every call below that takes a sheet does first.
 * Refusals: 1, 3. */
gaskeys_sheet_told gaskeys_judge_sheet(const uint32_t *list, size_t list_length);

/* Puts the sheet that comes with the product into `list`: it is accepted by every call that takes a sheet.
 * Refusals: 1. Leaves: all 5,403 places written, or with a refusal none. */
gaskeys_sheet_told gaskeys_built_in_sheet(uint32_t *list, size_t list_length);

/* The text of a sheet has 19,011 to 46,026 bytes: a buffer of the most is never too short. */
enum { GASKEYS_SHEET_TEXT_MOST = 46026 };

typedef struct {
    uint32_t refusal;
    uint32_t row;
    uint32_t placed;
    size_t bytes; /* the bytes of the text */
} gaskeys_written_told;

/* Writes the text of a sheet list into `text`, as gaskeys_read_sheet takes it: reading it gives the list again. A text that was read is written as it was, unless
 * its list breaks the step rule. The text is not ended by a 0.
 * Refusals: 1, 3, 14 (fewer bytes than the text has). Leaves: the text in the first `bytes` places, later places as they were, or with a refusal all. */
gaskeys_written_told gaskeys_write_sheet(const uint32_t *list, size_t list_length, uint8_t *text, size_t text_length);

/* ---- dry air ---- */

typedef struct {
    uint32_t refusal;
    uint32_t row; /* always 0 */
    uint32_t placed; /* always 0 */
    uint64_t reading;
} gaskeys_reading_told;

/* The heat of air above 0 K at a temperature, in 0.00001 C.H.U./lb.
 * Refusals: 6. */
gaskeys_reading_told gaskeys_air_heat(int64_t millikelvin);

/* psi of air at a temperature, in 0.0000001.
 * Refusals: 6. */
gaskeys_reading_told gaskeys_air_psi(int64_t millikelvin);

/* Cp of air as printed, in ten-thousandths, at a whole number of kelvins, 200 to 2,000.
 * Refusals: 6. */
gaskeys_reading_told gaskeys_air_cp(int64_t kelvin);

/* ---- the gas ---- */

typedef struct {
    uint32_t refusal;
    uint32_t row; /* always 0 */
    uint32_t placed; /* always 0 */
    uint64_t co2; /* mg all five */
    uint64_t h2o;
    uint64_t o2;
    uint64_t n2;
    uint64_t ar;
} gaskeys_burn_told;

/* What a charge burns to.
 * Refusals: 4, 5. */
gaskeys_burn_told gaskeys_burn(int64_t air, int64_t carbon, int64_t hydrogen);

typedef struct {
    uint32_t refusal;
    uint32_t row;
    uint32_t placed;
    int64_t heat;
} gaskeys_heat_told;

/* The gas heat of a charge at a temperature, above 0 K: what gaskeys_temperature takes as its target.
 * Refusals: 1, 3, 4, 5, 6. */
gaskeys_heat_told gaskeys_gas_heat(int64_t air, int64_t carbon, int64_t hydrogen, int64_t millikelvin, const uint32_t *sheet, size_t sheet_length);

/* Its content: the gas heat less the gas heat at 15 degrees C (288,160 mK). It is negative below 15 degrees C.
 * Refusals: 1, 3, 4, 5, 6. */
gaskeys_heat_told gaskeys_content(int64_t air, int64_t carbon, int64_t hydrogen, int64_t millikelvin, const uint32_t *sheet, size_t sheet_length);

/* Its specific content: the content divided by the total mass, to the nearest whole number, a tie to the even one (-23.8 is -24).
 * Refusals: 1, 3, 4, 5, 6. */
gaskeys_heat_told gaskeys_specific_content(int64_t air, int64_t carbon, int64_t hydrogen, int64_t millikelvin, const uint32_t *sheet, size_t sheet_length);

/* ---- temperatures ---- */

typedef struct {
    uint32_t refusal;
    uint32_t row;
    uint32_t placed;
    int64_t millikelvin;
    int64_t rest; /* the target less the gas heat at millikelvin */
} gaskeys_temperature_told;

/* The greatest temperature at which the gas of a charge holds no more heat than the target, a gas heat above 0 K.
 * Refusals: 1, 3, 10 (fewer than 11 looks), 4, 5, 8 or 9. Leaves: the looks in the first eleven places, 0 where unused, later places as they were. */
gaskeys_temperature_told gaskeys_temperature(int64_t air, int64_t carbon, int64_t hydrogen, int64_t target, const uint32_t *sheet, size_t sheet_length,
                                             uint32_t *looks, size_t looks_length);

typedef struct {
    uint32_t refusal;
    uint32_t row; /* always 0 */
    uint32_t placed; /* always 0 */
    int64_t millikelvin;
    uint64_t rest; /* the target less psi at millikelvin */
} gaskeys_psi_told;

/* The greatest temperature at which psi of air is at most the target.
 * Refusals: 10 (fewer than 11 looks), 8 or 9. Leaves: the looks as above. */
gaskeys_psi_told gaskeys_psi_inverse(int64_t target, uint32_t *looks, size_t looks_length);

/* ---- the walk ---- */

typedef struct {
    uint32_t refusal; /* 0: done. With begun 1, the refusal of the step that stopped the walk; with begun 0, that of the start */
    uint32_t row;
    uint32_t placed;
    uint32_t begun; /* 1 where the walk got past its start */
    uint32_t steps; /* the steps that were done */
    int64_t air;    /* the charge and the temperature after those steps */
    int64_t carbon;
    int64_t hydrogen;
    int64_t millikelvin;
} gaskeys_walk_told;

/* Walks a charge from a temperature over up to 64 steps, four numbers each: carbon added, hydrogen added, calorific value in hundredths of C.H.U./lb (0 to 5,000,000)
 * and plain heat q (-10^18 to 10^18). For n steps the temperatures and the rests have n places or more, the looks 11 n.
 * A step adds the mass of its fuel in mg (12011 carbon + 1008 hydrogen) times 1000 times the calorific value, plus q, to the content above 15 degrees C. The fuel enters
 * at 15 degrees C and so brings no content of its own. What is kept of the charge before is its content at its rounded temperature, the one in the list. The new
 * temperature is the greatest at which the new charge has no more content than the sum; what is left over is the rest, which is reported and not carried on to the next step.
 * Refusals of the start: 1, 3, 13, 10, 4, 5, 6; of a step: 4, 7, 5, 8 or 9.
 * Leaves: step i, from 0 on, that was done has its temperature and its rest in place i and its looks in the eleven places from 11 i on, 0 where unused. The places of
 * a step that was refused and of later ones, and all places past the steps, are as they were. */
gaskeys_walk_told gaskeys_walk(int64_t air, int64_t carbon, int64_t hydrogen, int64_t millikelvin, const uint32_t *sheet, size_t sheet_length, const int64_t *steps,
                               size_t steps_length, int64_t *temperatures, size_t temperatures_length, int64_t *rests, size_t rests_length, uint32_t *looks,
                               size_t looks_length);

/* ---- figures and marks ---- */

typedef struct {
    uint32_t refusal;
    uint32_t row;
    uint32_t placed;
    double millikelvin; /* whole numbers all three, below 2^53 in size: the difference of two like figures is exact */
    double content;     /* specific content above 15 degrees C, in 0.00001 C.H.U./lb, to the nearest whole number, a tie to the even one (-23.8 is -24) */
    double mass;        /* total mass in mg */
} gaskeys_station_told;

/* The figures of a charge at a temperature.
 * Refusals: 1, 3, 4, 5, 6. */
gaskeys_station_told gaskeys_station(int64_t air, int64_t carbon, int64_t hydrogen, int64_t millikelvin, const uint32_t *sheet, size_t sheet_length);

enum { GASKEYS_KELVINS = 0, GASKEYS_CONTENT = 1, GASKEYS_BLANK = 2 };

typedef struct {
    uint32_t refusal;
    uint32_t row;    /* always 0 */
    uint32_t placed;
    uint32_t counts; /* 1 where the answer counts */
} gaskeys_mark_told;

/* Marks a typed answer: kelvins, or a specific content in C.H.U./lb. With scale 1,000 or 100,000 it counts exactly if |scale * number - key| is at most the window, for
 * the exact value of the number. A blank has no number, and what is passed for it is not read; a kind that is neither GASKEYS_KELVINS nor GASKEYS_CONTENT is a blank.
 * Key -10^12 to 10^12, window 0 to 100,000, both in thousandths of a kelvin or 0.00001 C.H.U./lb.
 * Refusals: 12, 11. */
gaskeys_mark_told gaskeys_mark(uint32_t kind, double number, int64_t key, int64_t window);

#ifdef __cplusplus
}
#endif

#endif
