/* What include/gaskeys.h says of the caller's side and no promise can: a list of length 0 may be NULL, and a thread needs no more stack for a call than the header says.
 * Each call is made on a thread whose stack was painted, and what is no longer paint was used. It writes what it finds wrong. tools/boundary compiles and runs it. */
#define _POSIX_C_SOURCE 200809L
#include "gaskeys.h"

#include <pthread.h>
#include <stdio.h>
#include <string.h>

enum { ROWS = 1801, PLACES = 5403, STEPS = 64, STACK = 1 << 18, PAINT = 0xA5 };

static uint8_t text[ROWS * 32], written[GASKEYS_SHEET_TEXT_MOST];
static size_t length;
static uint32_t sheet[PLACES], list[PLACES], looks[11 * STEPS];
static int64_t steps[4 * STEPS], temperatures[STEPS], rests[STEPS];
static _Alignas(4096) unsigned char stack[STACK];

/* Kerosene at 1,465.757 K, its gas heat less 100 C.H.U./lb, and 64 steps that burn it. */
static const int64_t air = 100000, carbon = 21500, hydrogen = 41429, millikelvin = 1465757, target = 304760024644255488;

static void read_sheet(void) { gaskeys_read_sheet(text, length, list, PLACES); }
static void open_reading(void) { gaskeys_open_reading(); }
static void read_piece(void) { gaskeys_read_piece(gaskeys_open_reading(), text, length, list, PLACES); }
static void close_reading(void) { gaskeys_close_reading(gaskeys_open_reading(), list, PLACES); }
static void judge_sheet(void) { gaskeys_judge_sheet(sheet, PLACES); }
static void built_in_sheet(void) { gaskeys_built_in_sheet(list, PLACES); }
static void write_sheet(void) { gaskeys_write_sheet(sheet, PLACES, written, sizeof written); }
static void air_heat(void) { gaskeys_air_heat(millikelvin); }
static void air_psi(void) { gaskeys_air_psi(millikelvin); }
static void air_cp(void) { gaskeys_air_cp(2000); }
static void burn(void) { gaskeys_burn(air, carbon, hydrogen); }
static void gas_heat(void) { gaskeys_gas_heat(air, carbon, hydrogen, millikelvin, sheet, PLACES); }
static void content(void) { gaskeys_content(air, carbon, hydrogen, millikelvin, sheet, PLACES); }
static void specific_content(void) { gaskeys_specific_content(air, carbon, hydrogen, millikelvin, sheet, PLACES); }
static void temperature(void) { gaskeys_temperature(air, carbon, hydrogen, target, sheet, PLACES, looks, 11); }
static void psi_inverse(void) { gaskeys_psi_inverse(101415001, looks, 11); }
static void walk(void) { gaskeys_walk(air, 0, 0, 400000, sheet, PLACES, steps, 4 * STEPS, temperatures, STEPS, rests, STEPS, looks, 11 * STEPS); }
static void station(void) { gaskeys_station(air, carbon, hydrogen, millikelvin, sheet, PLACES); }
static void mark(void) { gaskeys_mark(GASKEYS_KELVINS, 1465.5, millikelvin, 500); }

typedef struct {
    const char *name;
    void (*make)(void);
    size_t most; /* bytes of a thread's stack, as the header has them */
} call;

static const call calls[] = {
    {"read_sheet", read_sheet, 49152},
    {"open_reading", open_reading, 24576},
    {"read_piece", read_piece, 24576},
    {"close_reading", close_reading, 24576},
    {"judge_sheet", judge_sheet, 24576},
    {"built_in_sheet", built_in_sheet, 24576},
    {"write_sheet", write_sheet, 24576},
    {"air_heat", air_heat, 24576},
    {"air_psi", air_psi, 24576},
    {"air_cp", air_cp, 24576},
    {"burn", burn, 24576},
    {"gas_heat", gas_heat, 24576},
    {"content", content, 24576},
    {"specific_content", specific_content, 24576},
    {"temperature", temperature, 24576},
    {"psi_inverse", psi_inverse, 24576},
    {"walk", walk, 24576},
    {"station", station, 24576},
    {"mark", mark, 24576},
};

static void prepare(void) {
    for (int kelvin = 200; kelvin <= 2000; kelvin++) {
        length += (size_t)sprintf((char *)text + length, "%d\t200000\t200000\t200000\n", kelvin);
    }
    gaskeys_built_in_sheet(sheet, PLACES);
    for (size_t i = 0; i < 4 * STEPS; i += 4) {
        steps[i] = 300;
        steps[i + 1] = 600;
        steps[i + 2] = 1030000;
    }
}

static void *make(void *made) {
    ((const call *)made)->make();
    return NULL;
}

/* The bytes of a thread's stack that are no longer paint after a call. */
static size_t used(call made) {
    pthread_attr_t attributes;
    pthread_t thread;
    size_t left = 0;
    memset(stack, PAINT, STACK);
    if (pthread_attr_init(&attributes) != 0 || pthread_attr_setstack(&attributes, stack, STACK) != 0 || pthread_create(&thread, &attributes, make, &made) != 0 ||
        pthread_join(thread, NULL) != 0) {
        return STACK;
    }
    while (left < STACK && stack[left] == PAINT) {
        left++;
    }
    return STACK - left;
}

static int too_much_stack(void) {
    int found = 0;
    for (size_t i = 0; i < sizeof calls / sizeof calls[0]; i++) {
        size_t bytes = used(calls[i]);
        if (bytes > calls[i].most) {
            printf("gaskeys_%s: %zu bytes of stack\n", calls[i].name, bytes);
            found = 1;
        }
    }
    return found;
}

static int wrong(const char *name, uint32_t refusal, uint32_t right) {
    if (refusal != right) {
        printf("gaskeys_%s, NULL for a list of length 0: refusal %u\n", name, (unsigned)refusal);
    }
    return refusal != right;
}

static int null_is_read(void) {
    const gaskeys_sheet_reading begun = gaskeys_open_reading();
    return wrong("read_sheet", gaskeys_read_sheet(NULL, 0, list, PLACES).refusal, GASKEYS_SHEET_TEXT) |
           wrong("read_sheet", gaskeys_read_sheet(text, length, NULL, 0).refusal, GASKEYS_SHEET_LENGTH) |
           wrong("read_piece", gaskeys_read_piece(begun, NULL, 0, list, PLACES).refusal, 0) |
           wrong("read_piece", gaskeys_read_piece(begun, text, length, NULL, 0).refusal, GASKEYS_SHEET_LENGTH) |
           wrong("read_piece", gaskeys_read_piece(begun, NULL, 0, NULL, 0).refusal, GASKEYS_SHEET_LENGTH) |
           wrong("close_reading", gaskeys_close_reading(begun, NULL, 0).refusal, GASKEYS_SHEET_LENGTH) |
           wrong("judge_sheet", gaskeys_judge_sheet(NULL, 0).refusal, GASKEYS_SHEET_LENGTH) |
           wrong("built_in_sheet", gaskeys_built_in_sheet(NULL, 0).refusal, GASKEYS_SHEET_LENGTH) |
           wrong("write_sheet", gaskeys_write_sheet(NULL, 0, written, sizeof written).refusal, GASKEYS_SHEET_LENGTH) |
           wrong("write_sheet", gaskeys_write_sheet(sheet, PLACES, NULL, 0).refusal, GASKEYS_SHORT_BUFFER) |
           wrong("gas_heat", gaskeys_gas_heat(1, 0, 0, 300000, NULL, 0).refusal, GASKEYS_SHEET_LENGTH) |
           wrong("content", gaskeys_content(1, 0, 0, 300000, NULL, 0).refusal, GASKEYS_SHEET_LENGTH) |
           wrong("specific_content", gaskeys_specific_content(1, 0, 0, 300000, NULL, 0).refusal, GASKEYS_SHEET_LENGTH) |
           wrong("temperature", gaskeys_temperature(1, 0, 0, 0, NULL, 0, NULL, 0).refusal, GASKEYS_SHEET_LENGTH) |
           wrong("temperature", gaskeys_temperature(1, 0, 0, 0, sheet, PLACES, NULL, 0).refusal, GASKEYS_SHORT_LIST) |
           wrong("psi_inverse", gaskeys_psi_inverse(0, NULL, 0).refusal, GASKEYS_SHORT_LIST) |
           wrong("walk", gaskeys_walk(1, 0, 0, 300000, NULL, 0, NULL, 0, NULL, 0, NULL, 0, NULL, 0).refusal, GASKEYS_SHEET_LENGTH) |
           wrong("walk", gaskeys_walk(1, 0, 0, 300000, sheet, PLACES, NULL, 0, NULL, 0, NULL, 0, NULL, 0).refusal, 0) |
           wrong("walk", gaskeys_walk(1, 0, 0, 300000, sheet, PLACES, steps, 4, NULL, 0, NULL, 0, NULL, 0).refusal, GASKEYS_SHORT_LIST) |
           wrong("station", gaskeys_station(1, 0, 0, 300000, NULL, 0).refusal, GASKEYS_SHEET_LENGTH);
}

int main(void) {
    prepare();
    return too_much_stack() | null_is_read();
}
