/* Every call of include/gaskeys.h: first the cases that document 01 prints, on a sheet of zeros, then kerosene on the built-in sheet. tools/boundary compiles, runs and
 * compares it with example.stdout, none of whose figures comes from this program: each has its source beside it. */
#include "gaskeys.h"

#include <inttypes.h>
#include <stdio.h>

enum { ROWS = 1801, PLACES = 5403, STEPS = 2 };

static uint8_t text[ROWS * 16];
static uint32_t sheet[PLACES];

/* A sheet on which every gas has heat 0: it is accepted, and a charge with no fuel never reads it. */
static size_t write_text(void) {
    size_t length = 0;
    for (int kelvin = 200; kelvin <= 2000; kelvin++) {
        length += (size_t)sprintf((char *)text + length, "%d\t0\t0\t0\n", kelvin);
    }
    return length;
}

/* The text ends too soon at row 1,800, the row of its last line. */
static void read_text(void) {
    size_t length = write_text();
    gaskeys_sheet_told short_text = gaskeys_read_sheet(text, length - 1, sheet, PLACES);
    printf("a line feed too few: refusal %" PRIu32 " at row %" PRIu32 "\n", short_text.refusal, short_text.row);
    gaskeys_sheet_told read = gaskeys_read_sheet(text, length, sheet, PLACES);
    gaskeys_sheet_told judged = gaskeys_judge_sheet(sheet, PLACES);
    printf("the sheet: read %" PRIu32 ", judged %" PRIu32 "\n", read.refusal, judged.refusal);
}

/* That text in pieces. A row has ten bytes here, so the first piece of 15 ends in row 1 behind `201`, a tab and a 0, in its field 1; the second holds nothing. A list that
 * is too short is refused with 1, and the reading goes on. After the last row more is expected, and the close accepts. */
static void read_pieces(void) {
    const size_t length = write_text(), cut = 15;
    gaskeys_sheet_reading reading = gaskeys_open_reading();
    gaskeys_piece_told begun = gaskeys_read_piece(reading, text, cut, sheet, PLACES);
    printf("a piece of %zu bytes: more %" PRIu32 ", row %" PRIu32 ", field %" PRIu32 "\n", cut, begun.more, begun.reading.row, begun.reading.field);
    gaskeys_piece_told empty = gaskeys_read_piece(begun.reading, NULL, 0, sheet, PLACES);
    gaskeys_piece_told refused = gaskeys_read_piece(empty.reading, text + cut, length - cut, sheet, PLACES - 1);
    gaskeys_piece_told rest = gaskeys_read_piece(refused.reading, text + cut, length - cut, sheet, PLACES);
    gaskeys_piece_told closed = gaskeys_close_reading(rest.reading, sheet, PLACES);
    printf("nothing: more %" PRIu32 "; a list too short: refusal %" PRIu32 "; the rest: more %" PRIu32 "; closed: refusal %" PRIu32 ", more %" PRIu32 "\n", empty.more,
           refused.refusal, rest.more, closed.refusal, closed.more);
}

/* Row 2 is bad from its third byte on, 203 for 202: the rows before it are in the list, and the place after them is 0 as it was. */
static void read_bad_piece(void) {
    static const uint8_t piece[] = "200\t1\t2\t3\n201\t4\t5\t6\n203\t7\t8\t9\n";
    gaskeys_piece_told told = gaskeys_read_piece(gaskeys_open_reading(), piece, sizeof piece - 1, sheet, PLACES);
    gaskeys_piece_told again = gaskeys_close_reading(told.reading, sheet, PLACES);
    printf("a bad piece: refusal %" PRIu32 " at row %" PRIu32 ", and again %" PRIu32 " at row %" PRIu32 "; its rows before:", told.refusal, told.row, again.refusal, again.row);
    for (int i = 0; i < 7; i++) {
        printf(" %" PRIu32, sheet[i]);
    }
    printf("\n");
}

static void print_walk(const gaskeys_walk_told *told, const int64_t *temperatures, const int64_t *rests, const uint32_t *looks) {
    printf("step\tmK\trest\tlooks\n");
    for (uint32_t i = 0; i < told->steps; i++) {
        int count = 0;
        while (count < 11 && looks[11 * i + (uint32_t)count] != 0) {
            count++;
        }
        printf("%" PRIu32 "\t%" PRId64 "\t%" PRId64 "\t%d\n", i + 1, temperatures[i], rests[i], count);
    }
    if (told->refusal != 0) {
        printf("refused\t%" PRIu32 "\n", told->refusal);
    }
}

/* The walk that document 01 prints; 200.5 K lies 1 mK below its end, so it counts with window 1. */
static void walk(void) {
    const int64_t steps[4 * STEPS] = {0, 0, 0, 1200000001, 0, 0, 0, 2400000};
    int64_t temperatures[STEPS], rests[STEPS];
    uint32_t looks[11 * STEPS];
    gaskeys_walk_told walked = gaskeys_walk(1, 0, 0, 200000, sheet, PLACES, steps, 4 * STEPS, temperatures, STEPS, rests, STEPS, looks, 11 * STEPS);
    print_walk(&walked, temperatures, rests, looks);
    gaskeys_mark_told mark = gaskeys_mark(GASKEYS_KELVINS, 200.5, walked.millikelvin, 1);
    gaskeys_mark_told blank = gaskeys_mark(GASKEYS_BLANK, 0, walked.millikelvin, 1);
    printf("200.5 K counts: %" PRIu32 "; a blank: refusal %" PRIu32 "\n", mark.counts, blank.refusal);
}

/* Document 01: P9, P3 and one more, P2, P3; Cp of 200 K is 0.2393 in Table 1. */
static void air(void) {
    uint32_t looks[11];
    gaskeys_temperature_told reached = gaskeys_temperature(1, 0, 0, 478802399999, sheet, PLACES, looks, 11);
    printf("the temperature of a heat: %" PRId64 " mK, rest %" PRId64 "\n", reached.millikelvin, reached.rest);
    gaskeys_psi_told psi = gaskeys_psi_inverse(95302001, looks, 11);
    printf("the temperature of a psi: %" PRId64 " mK, rest %" PRIu64 "\n", psi.millikelvin, psi.rest);
    gaskeys_reading_told heat = gaskeys_air_heat(200500), back = gaskeys_air_psi(200500), cp = gaskeys_air_cp(200);
    printf("air: heat %" PRIu64 ", psi %" PRIu64 ", Cp %" PRIu64 "\n", heat.reading, back.reading, cp.reading);
}

/* Document 01, P4 and P5. Air has heat 7,170,000 at 300 K and 6,886,840 at 15 degrees C, 283,160 less. With a mole of hydrogen atoms, which bring no heat on this sheet, a
 * thousandth of a kelvin below 15 degrees C is 100,000 mg times -24 over 101,008 mg: -23.76, the nearest to which is -24. */
static void gas(void) {
    gaskeys_burn_told burnt = gaskeys_burn(3, 1, 4);
    printf("burnt: CO2 %" PRIu64 ", H2O %" PRIu64 ", O2 %" PRIu64 ", N2 %" PRIu64 ", Ar %" PRIu64 "\n", burnt.co2, burnt.h2o, burnt.o2, burnt.n2, burnt.ar);
    printf("with less air: %s\n", gaskeys_burn(2, 1, 4).refusal == GASKEYS_NOT_LEAN ? "not lean" : "lean");
    gaskeys_station_told figures = gaskeys_station(1, 0, 0, 300000, sheet, PLACES);
    printf("a station: %.0f mK, content %.0f, mass %.0f\n", figures.millikelvin, figures.content, figures.mass);
    gaskeys_heat_told below = gaskeys_specific_content(1, 0, 1, 288159, sheet, PLACES);
    printf("a thousandth below 15 degrees C: %" PRId64 "\n", below.heat);
}

/* Kerosene in air at a fuel/air ratio of 0.03, at 1,465.757 K: its figures, and how cold it gets by giving up 100 C.H.U./lb. The first row of the sheet is air's
 * 47.76 with -4.5, -15.4 and +40.0 of Table 5; the heats and the temperature are those of the second implementation. */
static void kerosene(void) {
    const int64_t air = 100000, carbon = 21500, hydrogen = 41429, millikelvin = 1465757;
    const int64_t mass = 100000 * air + 12011 * carbon + 1008 * hydrogen;
    uint32_t looks[11];
    gaskeys_sheet_told given = gaskeys_built_in_sheet(sheet, PLACES);
    printf("the built-in sheet: refusal %" PRIu32 ", %" PRIu32 " %" PRIu32 " %" PRIu32 "\n", given.refusal, sheet[0], sheet[1], sheet[2]);
    gaskeys_heat_told heat = gaskeys_gas_heat(air, carbon, hydrogen, millikelvin, sheet, PLACES);
    gaskeys_heat_told content = gaskeys_content(air, carbon, hydrogen, millikelvin, sheet, PLACES);
    gaskeys_heat_told specific = gaskeys_specific_content(air, carbon, hydrogen, millikelvin, sheet, PLACES);
    printf("kerosene: gas heat %" PRId64 ", content %" PRId64 ", specific content %" PRId64 "\n", heat.heat, content.heat, specific.heat);
    gaskeys_temperature_told cooled = gaskeys_temperature(air, carbon, hydrogen, heat.heat - 10000000 * mass, sheet, PLACES, looks, 11);
    printf("100 C.H.U./lb less: %" PRId64 " mK, rest %" PRId64 "\n", cooled.millikelvin, cooled.rest);
}

/* The same sheet with another figure for the H2O of 200 K, written back: the text of the built-in sheet has 40,164 bytes by the second implementation, and the new figure
 * has as many digits as the old. A buffer that is a byte shorter is refused. */
static void write_back(void) {
    static uint8_t written[GASKEYS_SHEET_TEXT_MOST];
    sheet[2] = 8777;
    gaskeys_written_told told = gaskeys_write_sheet(sheet, PLACES, written, sizeof written);
    printf("written back: %zu bytes, the first row\n%.18s\n", told.bytes, (const char *)written);
    gaskeys_written_told refused = gaskeys_write_sheet(sheet, PLACES, written, told.bytes - 1);
    printf("a byte too few: refusal %" PRIu32 "\n", refused.refusal);
}

int main(void) {
    printf("version %d, and the archive's %" PRIu32 "\n", GASKEYS_VERSION, gaskeys_version_2());
    read_bad_piece();
    read_pieces();
    read_text();
    walk();
    air();
    gas();
    kerosene();
    write_back();
    return 0;
}
