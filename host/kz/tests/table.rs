//! The tables that people read: what stands in them, and that their lines fit.

mod plans;

use kz::clock::{grouped, time};
use kz::day::Day;
use kz::sheet::{Act, Sheet};
use kz::table::{day_table, plan_table, vehicle_table};
use kz::text::{parse, Names};
use plans::cases;
use reference::worked::DAY_M;
use reference::worked_plans::{A1, B1, C1, E, F2, PLAN_M};

fn numbered(day: &Day) -> Names {
    Names::numbered(day.stops.len(), day.tips.len())
}

#[test]
fn the_vehicle_of_day_m_reads_as_worked_out_by_hand() {
    let day = Day::of(&DAY_M);
    let table = vehicle_table(&day, &numbered(&day), &Sheet::of(&day, &PLAN_M), 1);
    let expected = "\
Vehicle 1: 00:00 to 01:20, 2 stops, 2 tippings, 110 kg, distance 35

arrive  start  leave  what      where                     open              kg  on board    distance
               00:00  leave     depot                                                  0           0
 00:10  00:10  00:15  stop 1    stop 1                    00:00-00:50       60        60           7
 00:25  00:25  00:30  tip 1     tip 1                     00:00-01:40                  0          14
        00:30  00:40  rest      tip 1                                                  0          14
 00:50  00:50  00:55  stop 2    stop 2                    00:00-00:50       50        50          21
 01:05  01:05  01:10  tip 1     tip 1                     00:00-01:40                  0          28
 01:20                back      depot                                                  0          35
";
    assert_eq!(table, expected);
}

#[test]
fn what_a_plan_comes_to_and_leaves_out_is_said() {
    let day = Day::of(&DAY_M);
    let sheet = |plan: &[u32]| plan_table(&day, &numbered(&day), &Sheet::of(&day, plan));
    let whole = sheet(&PLAN_M);
    assert!(
        whole.ends_with("\n1 vehicle, 2 of 2 stops, 110 kg, distance 35\nno stop is left out\n")
    );
    let part = sheet(&[A1, B1, C1, E, F2]);
    assert!(part.ends_with("\n1 vehicle, 1 of 2 stops, 60 kg, distance 21\nleft out:\n  stop 2\n"));
}

#[test]
fn names_stand_in_the_tables() {
    let text = "day \"Tuesday's rounds\"\nload 9 kg\nload-a-day 9 kg\nstops-a-day 9\n\
        depot 0-99 min at 0 0\nrest 0-99 min 5 min\ntip \"North yard\" 0-99 min 1 min at 0 1\n\
        stop \"Bakery in a lane whose name is too long to be written out in full\" 5-60 min 2 min 3 kg at 0 2\n\
        legs by coordinates km 60 km/h detour 1\n";
    let named = parse(text).expect("a day");
    let (day, names) = (Day::of(&named.words), &named.names);
    let shown = day_table(&day, names);
    assert!(shown.starts_with("Tuesday's rounds\n\nload        9 kg\n"), "{shown}");
    assert!(shown.contains("\ntip 1     North yard "), "{shown}");
    assert!(
        shown.contains("\nstop 1    Bakery in a lane whose name is too long\u{2026}  00:05-01:00 "),
        "{shown}"
    );
    assert!(shown.ends_with("\n1 stop, 1 tip, 3 kg in all\n"), "{shown}");
    let left_out = plan_table(&day, names, &Sheet::of(&day, &[0xF000_0001]));
    assert!(left_out.contains("\nleft out:\n  stop 1 Bakery in a lane"), "{left_out}");
}

/// On random days and plans: no line is too long, and every start and distance is there.
#[test]
fn lines_fit_and_every_word_has_one() {
    for (_, _, day, sheet) in cases(8, 200) {
        let names = numbered(&day);
        let table = plan_table(&day, &names, &sheet);
        for line in day_table(&day, &names).lines().chain(table.lines()) {
            assert!(line.chars().count() <= 100, "{line}");
        }
        for round in &sheet.rounds {
            let table = vehicle_table(&day, &names, &sheet, round.number);
            for (entry, line) in round.entries.iter().zip(table.lines().skip(3)) {
                assert!(line.ends_with(&grouped(entry.distance)), "{line}");
                let minute = if entry.act == Act::Leave { entry.end } else { entry.start };
                assert!(line.contains(&time(minute)), "{line}");
            }
            assert_eq!(table.lines().count(), 3 + round.entries.len());
        }
    }
}
