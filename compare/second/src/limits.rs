//! Document 01's table of lines: each line's key and the least and greatest value of each of its fields. Sheet 2 of document 02 has another
//! line for a stage, and all others alike.

/// The least and the greatest value of a field.
pub type Span = (i64, i64);

/// The longest sheet, in bytes.
pub const LONGEST: usize = 16_384;

const MASS: Span = (0, 1_000_000);
const TEMPERATURE: Span = (-200, 18_000);
const FLUE: Span = (0, 12_000);
const SHARE: Span = (0, 10_000);
const MATERIAL: Span = (0, 18);
const CAPACITY: Span = (0, 100_000);
const SECTION_NUMBER: Span = (1, 999);
const ROOM_AIR: Span = (-200, 500);
const STAGE_GAS: Span = (0, 200_000);
const EXCESS_AIR: Span = (1_000, 5_000);
const CO: Span = (0, 1_000);
const MINUTES: Span = (1, 2_880);

pub const MOST_STAGES: usize = 12;
pub const MOST_SECTIONS: usize = 12;

pub const SHEET: [Span; 1] = [(1, 2)];
pub const FIRING: [Span; 1] = [(1, 999_999_999)];
pub const PRODUCT: [Span; 1] = [(1_000, 1_000_000)];
pub const AMBIENT: [Span; 1] = [ROOM_AIR];
pub const FUEL: [Span; 2] = [(3_000, 130_000), (0, 600)];
pub const GAS: [Span; 13] = [SHARE; 13];
pub const AIR: [Span; 1] = [(0, 500)];
pub const WARE: [Span; 5] = [MASS, TEMPERATURE, TEMPERATURE, MATERIAL, CAPACITY];
pub const WATER: [Span; 3] = [MASS, MASS, FLUE];
pub const CLAY: [Span; 1] = [MASS];
pub const STAGES: [Span; 1] = [(1, MOST_STAGES as i64)];
pub const STAGE: [Span; 5] = [STAGE_GAS, EXCESS_AIR, FLUE, CO, MINUTES];
/// Of sheet 2: CO2 with SO2 and O2 stand behind CO, and table A.1 ends at 1,000 °C.
pub const ANALYSED_STAGE: [Span; 7] = [STAGE_GAS, EXCESS_AIR, (0, 10_000), CO, (0, 2_500), (0, 2_100), MINUTES];
pub const SETTERS: [Span; 1] = [(0, 32)];
pub const SETTER: [Span; 4] = [MASS, TEMPERATURE, MATERIAL, CAPACITY];
pub const PARTS: [Span; 1] = [(0, 32)];
pub const PART: [Span; 5] = [MASS, MATERIAL, CAPACITY, TEMPERATURE, TEMPERATURE];
pub const SECTIONS: [Span; 1] = [(1, MOST_SECTIONS as i64)];
pub const SECTION: [Span; 3] = [SECTION_NUMBER, (1, 3), (1, 20_000)];
pub const WALLS: [Span; 1] = [(0, 48)];
pub const WALL: [Span; 4] = [SECTION_NUMBER, (1, MOST_STAGES as i64), (-200, 3_000), ROOM_AIR];
pub const END: [Span; 1] = [(1, 1)];

/// Which field of its line names the material, counted from 1.
pub const WARE_MATERIAL: u32 = 4;
pub const SETTER_MATERIAL: u32 = 3;
pub const PART_MATERIAL: u32 = 2;

/// Gas of all stages together, in tenths of a cubic metre.
pub const TOTAL_GAS: Span = (100, 200_000);

/// The shares of the gas, in hundredths of a percent, add to this.
pub const ALL_SHARES: i64 = 10_000;

/// CO, CO2 with SO2, and O2 together are at most this much of the dry flue, in hundredths of a percent. The rest is nitrogen.
pub const MOST_ANALYSED: i64 = 4_000;

/// Every kind of line, in the sheet's order: a stage's of sheet 1, and behind it that of sheet 2.
pub const LINES: [(&str, &[Span]); 22] = [
    ("sheet", &SHEET),
    ("firing", &FIRING),
    ("product", &PRODUCT),
    ("ambient", &AMBIENT),
    ("fuel", &FUEL),
    ("gas", &GAS),
    ("air", &AIR),
    ("ware", &WARE),
    ("water", &WATER),
    ("clay", &CLAY),
    ("stages", &STAGES),
    ("stage", &STAGE),
    ("stage", &ANALYSED_STAGE),
    ("setters", &SETTERS),
    ("setter", &SETTER),
    ("parts", &PARTS),
    ("part", &PART),
    ("sections", &SECTIONS),
    ("section", &SECTION),
    ("walls", &WALLS),
    ("wall", &WALL),
    ("end", &END),
];
