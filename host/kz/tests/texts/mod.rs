//! Days in text that the tests go by.

/// Day M, with its legs as a matrix.
pub const MATRIX: &str = "\
day M
load 100 kg
load-a-day 200 kg
stops-a-day 5
depot 00:00-01:40
rest 00:30-01:00 10 min
tip yard 0-100 min 5 min
stop \"first stop\" 0-50 min 5 min 60 kg
stop second 00:00-00:50 5 min 50 kg # a comment
legs by matrix
depot - 10/7 10/7 10/7
yard 10/7 - 10/7 10/7
\"first stop\" 10/7 10/7 0/0 10/7
second 10/7 10/7 10/7 -
";

/// A day whose legs come from coordinates.
pub const COORDINATES: &str = "\
# of one stop

day \"Tuesday, \u{e4} day\"
stops-a-day 5
load-a-day 200 kg
load 100 kg
rest 11:00-13:00 30 min
stop Caf\u{e9} 07:05-24:00 5 min 60 kg at 3.000 4
depot 06:00-18:00 at 0 0
tip yard 6:30-17:00 12 min at -1.5 0.25
legs by coordinates km 30 km/h detour 1.20
";

/// London, where nobody is more than a few km from the depot.
pub const DEGREES: &str = "\
day London
load 100 kg
load-a-day 200 kg
stops-a-day 5
rest 11:00-13:00 30 min
depot 06:00-18:00 at 51.507400 -0.127800
tip yard 06:00-17:00 12 min at 51.520000 -0.105000
stop Baker 07:00-12:00 5 min 60 kg at 51.498765 -0.143210
legs by coordinates degrees 20 km/h detour 1.30
";
