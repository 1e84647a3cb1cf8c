//! From the sheet's lines to the joules of each heat, in one pass: a line's heats are added up as soon as it is read.

use crate::flue::{Burning, Stage, UNANALYSED};
use crate::limits::*;
use crate::matter::{fuel_heat, mixture, Analysis, Stuff};
use crate::scan::Scan;
use crate::surface::{loss, Section};
use crate::whole::nearest;
use crate::Refused;

/// The heats of a report: q1 q2 q3 q5 q8 in x1 x2 x3 x5 x7 x8 x9 x10 x11 useful withset.
pub const HEATS: usize = 17;

/// A firing worked out.
pub struct Balance {
    pub firing: i64,
    pub product: i64,
    /// In joules, in the report's order.
    pub heats: [i64; HEATS],
}

impl Balance {
    /// Useful heat without and with the setters over the burnt gas's, in hundredths of a percent.
    pub fn efficiencies(&self) -> [i64; 2] {
        [15, 16].map(|heat| nearest(10_000 * self.heats[heat], self.heats[0]))
    }
}

/// What the lines from `product` to `clay` say, as far as later lines need it.
struct Load {
    product: i64,
    base: i64,
    heating: i64,
    fuel: i64,
    mixture: (i64, i64),
    burning: Burning,
    moisture: i64,
    highest: i64,
}

/// Joules as they add up.
#[derive(Default)]
struct Sums {
    q3: i64,
    q5: i64,
    q8: i64,
    x1: i64,
    x2: i64,
    x3: i64,
    x5: i64,
    x7: i64,
    x8: i64,
    x9: i64,
    x10: i64,
    /// The ware's waters by formula 33, which is not x2.
    water: i64,
}

/// What the stages leave behind.
struct Stages {
    count: usize,
    gas: i64,
    minutes: [i64; MOST_STAGES],
}

/// The heats of the sheet, or the first rule that it breaks, except for the rule about the report's room.
pub fn balance(sheet: &[u8]) -> Result<Balance, Refused> {
    if sheet.len() > LONGEST {
        return Err(Refused::whole(1));
    }
    let mut scan = Scan::new(sheet);
    let mut sums = Sums::default();
    let [edition] = scan.line(b"sheet=", &SHEET)?;
    let [firing] = scan.line(b"firing=", &FIRING)?;
    let load = load(&mut scan, &mut sums)?;
    let stages = stages(&mut scan, &mut sums, &load, edition)?;
    setters(&mut scan, &mut sums, &load)?;
    parts(&mut scan, &mut sums, &load)?;
    let all_read = walls(&mut scan, &mut sums, &stages)?;
    scan.line(b"end=", &END)?;
    scan.finish()?;
    if stages.gas < TOTAL_GAS.0 || stages.gas > TOTAL_GAS.1 {
        return Err(Refused::whole(10));
    }
    if !all_read {
        return Err(Refused::whole(8));
    }
    Ok(Balance { firing, product: load.product, heats: heats(&sums, &load, stages.gas) })
}

#[inline]
fn load(scan: &mut Scan, sums: &mut Sums) -> Result<Load, Refused> {
    let [product] = scan.line(b"product=", &PRODUCT)?;
    let [base] = scan.line(b"ambient=", &AMBIENT)?;
    let [heating, fuel] = scan.line(b"fuel=", &FUEL)?;
    let shares = scan.line(b"gas=", &GAS)?;
    let burning = Burning::of(&shares).ok_or_else(|| scan.refuse(5))?;
    let [moisture] = scan.line(b"air=", &AIR)?;
    let [green, entry, highest, material, capacity] = scan.line(b"ware=", &WARE)?;
    let ware = Stuff::new(material, capacity).ok_or_else(|| scan.refuse_at(4, WARE_MATERIAL))?;
    sums.q5 = ware.heat(green, entry, base);
    sums.x1 = ware.heat(product, highest, entry);
    let [adsorbed, crystal, flue] = scan.line(b"water=", &WATER)?;
    sums.x2 = nearest((adsorbed + crystal) * (2_490_000 + 193 * (flue - base)), 10);
    let to_boiling = 418 * (1_000 - entry) + 2_260_000;
    sums.water = nearest(adsorbed * (to_boiling + 25 * 1_930) + crystal * (to_boiling + 450 * 1_930), 10);
    let [clay] = scan.line(b"clay=", &CLAY)?;
    sums.x3 = clay * 108_800;
    Ok(Load { product, base, heating, fuel, mixture: mixture(&shares), burning, moisture, highest })
}

#[inline]
fn stages(scan: &mut Scan, sums: &mut Sums, load: &Load, edition: i64) -> Result<Stages, Refused> {
    let [count] = scan.line(b"stages=", &STAGES)?;
    let mut stages = Stages { count: count as usize, gas: 0, minutes: [0; MOST_STAGES] };
    for minutes in &mut stages.minutes[..count as usize] {
        let (stage, lasted) = if edition == 1 { stage(scan) } else { analysed_stage(scan) }?;
        let (warm, unburnt) = load.burning.stage(&stage, load.moisture, load.base);
        sums.x7 += warm;
        sums.x8 += unburnt;
        stages.gas += stage.gas;
        *minutes = lasted;
    }
    Ok(stages)
}

/// The next stage of sheet 1, and its minutes.
#[inline]
fn stage(scan: &mut Scan) -> Result<(Stage, i64), Refused> {
    let [gas, excess, flue, co, minutes] = scan.line(b"stage=", &STAGE)?;
    Ok((Stage { gas, excess, flue, co, capacity: UNANALYSED }, minutes))
}

/// The next stage of sheet 2, and its minutes.
#[inline]
fn analysed_stage(scan: &mut Scan) -> Result<(Stage, i64), Refused> {
    let [gas, excess, flue, co, pair, o2, minutes] = scan.line(b"stage=", &ANALYSED_STAGE)?;
    let analysis = Analysis { co, pair, o2 };
    if analysis.surpasses() {
        return Err(scan.refuse(14));
    }
    Ok((Stage { gas, excess, flue, co, capacity: analysis.capacity(flue) }, minutes))
}

#[inline]
fn setters(scan: &mut Scan, sums: &mut Sums, load: &Load) -> Result<(), Refused> {
    let [count] = scan.line(b"setters=", &SETTERS)?;
    for _ in 0..count {
        let [mass, entry, material, capacity] = scan.line(b"setter=", &SETTER)?;
        let setter = Stuff::new(material, capacity).ok_or_else(|| scan.refuse_at(4, SETTER_MATERIAL))?;
        sums.q3 += setter.heat(mass, entry, load.base);
        sums.x5 += setter.heat(mass, load.highest, entry);
    }
    Ok(())
}

#[inline]
fn parts(scan: &mut Scan, sums: &mut Sums, load: &Load) -> Result<(), Refused> {
    let [count] = scan.line(b"parts=", &PARTS)?;
    for _ in 0..count {
        let [mass, material, capacity, before, firing] = scan.line(b"part=", &PART)?;
        let part = Stuff::new(material, capacity).ok_or_else(|| scan.refuse_at(4, PART_MATERIAL))?;
        sums.q8 += part.heat(mass, before, load.base);
        sums.x10 += part.heat(mass, firing, load.base);
    }
    Ok(())
}

/// Sections and their readings; true where each section has been read in each stage.
#[inline]
fn walls(scan: &mut Scan, sums: &mut Sums, stages: &Stages) -> Result<bool, Refused> {
    let mut held = [Section::default(); MOST_SECTIONS];
    let [count] = scan.line(b"sections=", &SECTIONS)?;
    let sections = count as usize;
    for listed in 0..sections {
        let [number, place, area] = scan.line(b"section=", &SECTION)?;
        if held[..listed].iter().any(|other| other.number == number) {
            return Err(scan.refuse(6));
        }
        held[listed] = Section { number, place, area, read: 0 };
    }
    let sections = &mut held[..sections];
    let [readings] = scan.line(b"walls=", &WALLS)?;
    for _ in 0..readings {
        let [number, stage, surface, air] = scan.line(b"wall=", &WALL)?;
        let found = sections.iter_mut().find(|section| section.number == number);
        let section = match found {
            Some(section) if stage as usize <= stages.count => section,
            _ => return Err(scan.refuse(6)),
        };
        if section.read >> stage & 1 == 1 {
            return Err(scan.refuse(7));
        }
        if surface < air {
            return Err(scan.refuse(9));
        }
        section.read |= 1 << stage;
        sums.x9 += loss(section, stages.minutes[stage as usize - 1], surface, air);
    }
    // No reading stands twice, so as many readings as there are places for them fill every place.
    Ok(readings as usize == sections.len() * stages.count)
}

fn heats(sums: &Sums, load: &Load, gas: i64) -> [i64; HEATS] {
    let Sums { q3, q5, q8, x1, x2, x3, x5, x7, x8, x9, x10, water } = *sums;
    let q1 = gas * load.heating * 100;
    let q2 = fuel_heat(gas, load.mixture, load.fuel, load.base);
    let income = q1 + q2 + q3 + q5 + q8;
    let x11 = income - (x1 + x2 + x3 + x5 + x7 + x8 + x9 + x10);
    let useful = water + x3 + x1;
    [q1, q2, q3, q5, q8, income, x1, x2, x3, x5, x7, x8, x9, x10, x11, useful, useful + x5]
}
