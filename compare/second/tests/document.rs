//! The documents' own cases: the worked firing, the figures that document 01 marks, the edges that it has run by program, and the boxes of
//! document 02.

use second::{answer, balance, Answer};

const WORKED: &str = include_str!("../../../examples/worked.sheet");

/// The worked firing's report as document 01 prints it, with x9 and x11 by T-02.
const REPORT: &str = "firing=7\nq1=7000000\nq2=0\nq3=0\nq5=0\nq8=0\nin=7000000\nx1=1200000\nx2=287600\nx3=544000\nx5=600000\n\
    x7=2593943\nx8=0\nx9=152300\nx10=1201440\nx11=420717\nuseful=2049278\nwithset=2649278\neff1=2928\neff2=3785\n";

/// The worked sheet as one of sheet 2, with what the analyser read.
fn analysed() -> String {
    WORKED.replace("sheet=1", "sheet=2").replace("8200,0,600", "8200,0,1050,190,600")
}

/// The refusal, line and field for a sheet with this part of it changed.
fn changed_in(sheet: &str, from: &str, to: &str) -> (u32, u32, u32) {
    assert!(sheet.contains(from), "{from}");
    let said = answer(sheet.replace(from, to).as_bytes(), &mut [0; 400]);
    assert!((said.refusal == 0) == (said.length > 0));
    (said.refusal, said.line, said.field)
}

/// The same for the worked sheet.
fn changed(from: &str, to: &str) -> (u32, u32, u32) {
    changed_in(WORKED, from, to)
}

#[test]
fn the_worked_firing() {
    let mut room = [b'#'; 400];
    let said = answer(WORKED.as_bytes(), &mut room);
    assert_eq!(said, Answer { refusal: 0, line: 0, field: 0, length: REPORT.len() });
    assert_eq!(&room[..REPORT.len()], REPORT.as_bytes());
    assert!(room[REPORT.len()..].iter().all(|&byte| byte == b'#'));
}

/// x7 by the flue's own specific heat, and x11 by x7; nothing else.
#[test]
fn the_worked_firing_analysed() {
    let mut room = [b'#'; 400];
    let said = answer(analysed().as_bytes(), &mut room);
    let due = REPORT.replace("x7=2593943", "x7=2698522").replace("x11=420717", "x11=316137");
    assert_eq!(std::str::from_utf8(&room[..said.length]), Ok(&due[..]));
    assert_eq!(balance(analysed().as_bytes()).unwrap().heats[10], 2_698_522_258);
}

#[test]
fn the_edges_of_sheet_2() {
    let read = |analysis| changed_in(&analysed(), "0,1050,190,600", analysis);
    assert_eq!(read("0,2000,2000,600"), (0, 0, 0));
    assert_eq!(read("0,2000,2001,600"), (14, 12, 0));
    assert_eq!(read("1000,1500,1501,600"), (14, 12, 0));
    assert_eq!(read("0,2501,0,600"), (3, 12, 5));
    assert_eq!(read("0,0,2101,600"), (3, 12, 6));
    assert_eq!(read("1000,2500,2100,0"), (3, 12, 7));
    assert_eq!(read("1000,2500,2100,600"), (14, 12, 0));
    assert_eq!(read("0,1050,,600"), (12, 12, 6));
    assert_eq!(read("0,600"), (2, 12, 0));
    assert_eq!(changed("0,600", "0,1050,190,600"), (2, 12, 0));
    let flue = |tenths| changed_in(&analysed(), "8200,0", tenths);
    assert_eq!((flue("10000,0"), flue("10001,0")), ((0, 0, 0), (3, 12, 3)));
    assert_eq!(changed_in(&analysed(), "500,2200", "500,12000"), (0, 0, 0));
    assert_eq!(changed_in(&analysed(), "sheet=2", "sheet=3"), (3, 1, 1));
    assert_eq!(changed("sheet=1", "sheet=0"), (3, 1, 1));
}

#[test]
fn the_marked_wall_and_the_marked_half() {
    let firing = balance(WORKED.as_bytes()).unwrap();
    assert_eq!(firing.heats[12], 152_300_246);
    assert_eq!(firing.heats[15], 2_049_277_500);
    assert_eq!(firing.efficiencies()[0], 2_928);
}

/// 1,876,132.5 per tonne. Halves away from zero would print one more, in both lines.
#[test]
fn a_half_goes_to_the_even_digit() {
    let mut room = [0; 400];
    let said = answer(WORKED.replace("water=500,500,", "water=500,0,").as_bytes(), &mut room);
    let report = std::str::from_utf8(&room[..said.length]).unwrap();
    assert!(report.contains("\nuseful=1876132\nwithset=2476132\n"), "{report}");
}

#[test]
fn the_edges_run_by_program() {
    assert_eq!(changed("product=10000", "product=1000"), (0, 0, 0));
    assert_eq!(changed("product=10000", "product=999"), (3, 3, 1));
    assert_eq!(changed("stage=2000,", "stage=100,"), (0, 0, 0));
    assert_eq!(changed("stage=2000,", "stage=99,"), (10, 0, 0));
    assert_eq!(changed(",10000,0,0,0,0,0,0\n", ",9999,0,0,0,0,0,0\n"), (5, 6, 0));
    assert_eq!(changed("walls=1\nwall=3,1,560,200\n", "walls=0\n"), (8, 0, 0));
    assert_eq!(changed("walls=1\n", "walls=2\nwall=3,1,560,200\n"), (7, 21, 0));
    assert_eq!(changed("section=3", "section=4"), (6, 20, 0));
    assert_eq!(changed("560,200", "199,200"), (9, 20, 0));
    assert_eq!(changed("560,200", "200,200"), (0, 0, 0));
}

#[test]
fn the_order_of_refusals() {
    assert_eq!(changed("sheet=1\n", "sheet=9\n"), (3, 1, 1));
    assert_eq!(changed("sheet=1\n", "sheet=9"), (12, 1, 1));
    assert_eq!(changed("firing=7", "firing=1000000000"), (12, 2, 1));
    assert_eq!(changed("end=1\n", "end=1"), (13, 21, 0));
    assert_eq!(changed("end=1\n", "end=1\n\n"), (13, 22, 0));
    assert_eq!(changed("end=1\n", "end=2\n\n"), (3, 21, 1));
    assert_eq!(changed("wall=3,1", "wall=1000,1"), (3, 20, 1));
    assert_eq!(changed("walls=1\n", "walls=2\n"), (2, 21, 0));
    let gas_and_wall = WORKED.replace("stage=2000,", "stage=99,").replace("walls=1\nwall=3,1,560,200\n", "walls=0\n");
    assert_eq!(answer(gas_and_wall.as_bytes(), &mut []), Answer { refusal: 10, line: 0, field: 0, length: 0 });
}

#[test]
fn the_box_and_not_only_the_row() {
    assert_eq!(changed("fuel=35000,200", "fuel=35000,2O0"), (12, 5, 2));
    assert_eq!(changed("stage=2000,1100,8200,0", "stage=2000,900,13000,0"), (3, 12, 2));
    assert_eq!(changed("stage=2000,1100,8200,0", "stage=2000,900,8200,"), (12, 12, 4));
    assert_eq!(changed("12200,0,10000", "12200,0,0"), (4, 8, 4));
    assert_eq!(changed("setter=5000,200,0,10000", "setter=5000,200,1,10000"), (4, 14, 3));
    assert_eq!(changed("part=20000,1,0", "part=20000,1,1"), (4, 16, 2));
    assert_eq!(changed("clay=5000", "clay=5,000"), (2, 10, 0));
    assert_eq!(changed("clay=5000", "clay"), (2, 10, 0));
    assert_eq!(changed("clay=5000", "clay="), (12, 10, 1));
    assert_eq!(changed("clay=5000", "Clay=5O00"), (2, 10, 0));
    assert_eq!(changed("wall=3,1,560,200", "wall=3,13,56O,2O0"), (12, 20, 3));
    assert_eq!(changed("sheet=1\n", "sheet=1\r\n"), (12, 1, 1));
    assert_eq!(changed("wall=3,1,560,200\nend=1\n", "Wall=3,13,56O"), (13, 20, 0));
}

#[test]
fn lengths_and_rooms() {
    assert_eq!(answer(b"", &mut []), Answer { refusal: 13, line: 1, field: 0, length: 0 });
    assert_eq!(answer(&[b'\n'; 16_384], &mut []), Answer { refusal: 2, line: 1, field: 0, length: 0 });
    assert_eq!(answer(&[b'\n'; 16_385], &mut []), Answer { refusal: 1, line: 0, field: 0, length: 0 });
    let mut room = [b'#'; 400];
    let short = &mut room[..REPORT.len() - 1];
    assert_eq!(answer(WORKED.as_bytes(), short), Answer { refusal: 11, line: 0, field: 0, length: 0 });
    assert!(room.iter().all(|&byte| byte == b'#'));
    assert_eq!(answer(WORKED.as_bytes(), &mut room[..REPORT.len()]).length, REPORT.len());
}
