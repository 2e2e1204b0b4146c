//! The calls as include/gaskeys.h declares them, for who needs them bare: a list is a pointer and its
//! length in elements, and the header says what a pointer has to be. The functions of the crate's
//! root are these, made safe.

#[repr(C)]
pub struct SheetTold {
    pub refusal: u32,
    pub row: u32,
    pub placed: u32,
}

#[repr(C)]
#[derive(Clone, Copy, Debug, PartialEq, Eq)]
pub struct SheetReading {
    pub stage: u32,
    pub row: u32,
    pub field: u32,
    pub seen: u32,
    pub value: u32,
    pub first: u32,
    pub second: u32,
}

#[repr(C)]
pub struct PieceTold {
    pub refusal: u32,
    pub row: u32,
    pub placed: u32,
    pub more: u32,
    pub reading: SheetReading,
}

#[repr(C)]
pub struct WrittenTold {
    pub refusal: u32,
    pub row: u32,
    pub placed: u32,
    pub bytes: usize,
}

#[repr(C)]
pub struct ReadingTold {
    pub refusal: u32,
    pub row: u32,
    pub placed: u32,
    pub reading: u64,
}

#[repr(C)]
pub struct BurnTold {
    pub refusal: u32,
    pub row: u32,
    pub placed: u32,
    pub co2: u64,
    pub h2o: u64,
    pub o2: u64,
    pub n2: u64,
    pub ar: u64,
}

#[repr(C)]
pub struct HeatTold {
    pub refusal: u32,
    pub row: u32,
    pub placed: u32,
    pub heat: i64,
}

#[repr(C)]
pub struct TemperatureTold {
    pub refusal: u32,
    pub row: u32,
    pub placed: u32,
    pub millikelvin: i64,
    pub rest: i64,
}

#[repr(C)]
pub struct PsiTold {
    pub refusal: u32,
    pub row: u32,
    pub placed: u32,
    pub millikelvin: i64,
    pub rest: u64,
}

#[repr(C)]
pub struct WalkTold {
    pub refusal: u32,
    pub row: u32,
    pub placed: u32,
    pub begun: u32,
    pub steps: u32,
    pub air: i64,
    pub carbon: i64,
    pub hydrogen: i64,
    pub millikelvin: i64,
}

#[repr(C)]
pub struct StationTold {
    pub refusal: u32,
    pub row: u32,
    pub placed: u32,
    pub millikelvin: f64,
    pub content: f64,
    pub mass: f64,
}

#[repr(C)]
pub struct MarkTold {
    pub refusal: u32,
    pub row: u32,
    pub placed: u32,
    pub counts: u32,
}

/// The header's GASKEYS_VERSION: it goes up whenever a number, a list or a
/// struct changes its meaning.
pub const VERSION: u32 = 2;

/// Kept in whatever links the wrapper, as the header has it: an archive of another version does not
/// have the symbol.
#[used]
static LINKED_VERSION: unsafe extern "C" fn() -> u32 = gaskeys_version_2;

extern "C" {
    pub fn gaskeys_version_2() -> u32;

    pub fn gaskeys_read_sheet(
        text: *const u8,
        text_length: usize,
        list: *mut u32,
        list_length: usize,
    ) -> SheetTold;

    pub fn gaskeys_open_reading() -> SheetReading;

    pub fn gaskeys_read_piece(
        reading: SheetReading,
        piece: *const u8,
        piece_length: usize,
        list: *mut u32,
        list_length: usize,
    ) -> PieceTold;

    pub fn gaskeys_close_reading(
        reading: SheetReading,
        list: *const u32,
        list_length: usize,
    ) -> PieceTold;

    pub fn gaskeys_judge_sheet(list: *const u32, list_length: usize) -> SheetTold;

    pub fn gaskeys_built_in_sheet(list: *mut u32, list_length: usize) -> SheetTold;

    pub fn gaskeys_write_sheet(
        list: *const u32,
        list_length: usize,
        text: *mut u8,
        text_length: usize,
    ) -> WrittenTold;

    pub fn gaskeys_air_heat(millikelvin: i64) -> ReadingTold;

    pub fn gaskeys_air_psi(millikelvin: i64) -> ReadingTold;

    pub fn gaskeys_air_cp(kelvin: i64) -> ReadingTold;

    pub fn gaskeys_burn(air: i64, carbon: i64, hydrogen: i64) -> BurnTold;

    pub fn gaskeys_gas_heat(
        air: i64,
        carbon: i64,
        hydrogen: i64,
        millikelvin: i64,
        sheet: *const u32,
        sheet_length: usize,
    ) -> HeatTold;

    pub fn gaskeys_content(
        air: i64,
        carbon: i64,
        hydrogen: i64,
        millikelvin: i64,
        sheet: *const u32,
        sheet_length: usize,
    ) -> HeatTold;

    pub fn gaskeys_specific_content(
        air: i64,
        carbon: i64,
        hydrogen: i64,
        millikelvin: i64,
        sheet: *const u32,
        sheet_length: usize,
    ) -> HeatTold;

    pub fn gaskeys_temperature(
        air: i64,
        carbon: i64,
        hydrogen: i64,
        target: i64,
        sheet: *const u32,
        sheet_length: usize,
        looks: *mut u32,
        looks_length: usize,
    ) -> TemperatureTold;

    pub fn gaskeys_psi_inverse(target: i64, looks: *mut u32, looks_length: usize) -> PsiTold;

    pub fn gaskeys_walk(
        air: i64,
        carbon: i64,
        hydrogen: i64,
        millikelvin: i64,
        sheet: *const u32,
        sheet_length: usize,
        steps: *const i64,
        steps_length: usize,
        temperatures: *mut i64,
        temperatures_length: usize,
        rests: *mut i64,
        rests_length: usize,
        looks: *mut u32,
        looks_length: usize,
    ) -> WalkTold;

    pub fn gaskeys_station(
        air: i64,
        carbon: i64,
        hydrogen: i64,
        millikelvin: i64,
        sheet: *const u32,
        sheet_length: usize,
    ) -> StationTold;

    pub fn gaskeys_mark(kind: u32, number: f64, key: i64, window: i64) -> MarkTold;
}
