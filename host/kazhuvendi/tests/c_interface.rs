//! The header and the static library, as a C program sees them.

use std::path::Path;
use std::process::Command;

const PRINTED: &str = "\
accepted 0 2 1 0 0 0
cut 4 30 0 0 0 0
short 1 6 0 0 0 0
none 1 0 0 0 0 0
lawful 0 35 1 2 0 0
vehicles 0 42 2 2 0 0
unfinished 7 6 0 0 0 0
missing 8 4 0 0 0 0
empty 8 0 0 0 0 0
long 6 4096 0 0 0 0
whole 0 0 7 0 0 0
second 0 4 4 0 0 0
third 15 3 0 0 0 0
zeroth 15 0 0 0 0 0
wide 15 4294967297 0 0 0 0
neither 8 0 0 0 0 0
same 0 1 0 0 0 0
other 0 0 0 0 0 0
longer 6 4103 0 0 0 0
nothing 8 7 0 0 0 0
built 0 35 0 0 0 7
A0000001 B0000001 C0000001 D0000000 B0000002 C0000001 E0000000 0 0 0 7 7
narrow 14 10 0 0 0 0
7 7 7 7 7 7 7 7 7 7 7 7
planned 0 35 6 1 0 7
A0000001 B0000001 C0000001 D0000000 B0000002 C0000001 E0000000 0 0 0 7 7
7 7
stopped 0 35 5 0 0 7
A0000001 B0000001 C0000001 D0000000 B0000002 C0000001 E0000000 0 0 0 7 7
7 7
neighbours 13 51 0 0 0 0
7 7 7 7 7 7 7 7 7 7 7 7
7 7
tight 14 10 0 0 0 0
7 7 7 7 7 7 7 7 7 7 7 7
7 7
working 14 10 0 0 0 0
7 7 7 7 7 7 7 7 7 7 7 7
7 7
growing 0 35 24 1 0 7
A0000001 B0000001 C0000001 D0000000 B0000002 C0000001 E0000000 0 0 0 7 7
7 7
ended 0 35 23 0 0 7
A0000001 B0000001 C0000001 D0000000 B0000002 C0000001 E0000000 0 0 0 7 7
7 7
slim 14 10 0 0 0 0
7 7 7 7 7 7 7 7 7 7 7 7
7 7
scarce 14 10 0 0 0 0
7 7 7 7 7 7 7 7 7 7 7 7
7 7
left 0 21 0 0 1 6
A0000001 B0000002 C0000001 D0000000 E0000000 F0000001 0 0 0 0 7 7
window 5 5 0 0 0 0
day 5 5 0 0 0 0
before 5 5 0 0 0 0
7 7 7 7 7 7 7 7 7 7 7 7
first 5 5 0 0 0 0
7 7 7 7 7 7 7 7 7 7 7 7
7 7
also 5 5 0 0 0 0
7 7 7 7 7 7 7 7 7 7 7 7
7 7
kind 2 4 0 0 0 0
size 3 0 0 0 0 0
read 0 7 0 0 0 0
12345678 0 0 0 0 0 800000FF 7 7
room 14 7 0 0 0 0
7 7 7 7 7 7 7 7 7
bytes 1 6 0 0 0 0
7 7 7 7 7 7 7 7 7
imported 0 13 0 0 0 0
10000100 200000C8 300F4240 400000F0 500000E6 605A05A0 70000000 500000E6 70000000 90000000 90000000 90000000 90000000 7
just 0 13 0 0 0 0
10000100 200000C8 300F4240 400000F0 500000E6 605A05A0 70000000 500000E6 70000000 90000000 90000000 90000000 90000000 7
lacking 14 13 0 0 0 0
7 7 7 7 7 7 7 7 7 7 7 7 7 7
stop 14 21 0 0 0 0
7 7 7 7 7 7 7 7 7 7 7 7 7 7
form 17 113 0 0 0 0
7 7 7 7 7 7 7 7 7 7 7 7 7 7
limit 18 100 0 0 0 0
7 7 7 7 7 7 7 7 7 7 7 7 7 7
due 18 110 0 0 0 0
7 7 7 7 7 7 7 7 7 7 7 7 7 7
";

#[test]
fn a_c_program_gets_the_answers_that_the_header_names() {
    let package = Path::new(env!("CARGO_MANIFEST_DIR"));
    let program = Path::new(env!("CARGO_TARGET_TMPDIR")).join("interface");
    let compiled = Command::new("cc")
        .args(["-std=c99", "-Wall", "-Wextra", "-Wpedantic", "-Werror", "-I"])
        .arg(package.join("../include"))
        .arg(package.join("tests/c/interface.c"))
        .arg(package.join("../../target/staticlib/libkazhuvendi.a"))
        .arg("-o")
        .arg(&program)
        .output()
        .expect("there is a C compiler");
    let complaint = String::from_utf8_lossy(&compiled.stderr);
    assert!(compiled.status.success(), "{complaint}");
    let ran = Command::new(&program).output().expect("the program runs");
    assert!(ran.status.success());
    assert_eq!(String::from_utf8_lossy(&ran.stdout), PRINTED);
}
