//! Ways of conditional jumps, from listings and dumps written out.

use std::path::Path;

use reference::mask::dump::{add_all, counts, written, Count};
use reference::mask::listing::{functions, is_conditional_jump, Function};
use reference::mask::report::{list, sum, table};
use reference::mask::symbols::{place, symbols};
use reference::mask::ways::{Tally, Ways};

/// As `objdump -d -l --no-show-raw-insn -w` prints it.
const LISTING: &str = "
day:     file format elf64-x86-64


Disassembly of section .text:

0000000000001100 <rules::first>:
rules::first():
crates/rules/src/lib.rt:7
    1100:\tcmp    %rax,%rbx
    1103:\tje     1120 <rules::first+0x20>
crates/rules/src/lib.rt:9 (discriminator 2)
    1105:\tcmovb  %rcx,%rdx
    1109:\ttest   %edi,%edi
    110b:\tjne    1100 <rules::first>
    110d:\tjmp    1120 <rules::first+0x20>
    1120:\tret

0000000000001130 <rules::second>:
rules::second():
    1130:\ttest   %esi,%esi
    1132:\tjs     1138 <rules::second+0x8>
    1134:\tjrcxz  1138 <rules::second+0x8>
    1136:\tret
    1138:\tret
";

/// A run as callgrind dumps it: the loop of `rules::first` in two blocks of code, names and
/// positions compressed, calls with what they cost, another object with the same addresses.
const DUMP: &str = "# callgrind format
version: 1
cmd:  ./day
positions: instr line
events: Ir
summary: 60

ob=(2) /lib/libc.so.6
fl=(1) ???
fn=(1) memcpy
0x1100 0 50
+3 0 50
jcnd=20/50 +29 0 
* 0 
cob=(1) /home/day
cfn=(2) rules::first
calls=1 0x1100 0 
* 0 17
cfn=(3) rules::second
calls=3 0x1130 0 
* 0 9

ob=(1)
fn=(2)
0x1100 0 1
+3 0 1
+2 0 1
+4 0 1
+2 0 1
jcnd=1/1 -11 0 
* 0 
-11 0 2
+3 0 2
jcnd=1/2 +29 0 
* 0 
+2 0 1
+4 0 1
+2 0 1
jcnd=1/1 -11 0 
* 0 
+21 0 1

fn=(3)
0x1130 0 3
+2 0 3
+2 0 3
+2 0 3
";

/// Another run, as it is dumped without compression.
const LATER: &str = "positions: instr
events: Dr Ir
ob=/home/day
fn=rules::second
0x1130 0 1
0x1132 0 1
jcnd=1/1 0x1138
0x1132
0x1138 0 1
";

fn day() -> &'static Path {
    Path::new("target/day")
}

fn tally(dumps: &[&str]) -> Tally {
    let mut tally = Tally::new(functions(LISTING).expect("a listing"));
    for dump in dumps {
        tally.add_own(&counts(dump, day()).expect("a dump"));
    }
    tally
}

fn ways(tally: &Tally, number: usize) -> Vec<Ways> {
    tally.jumps(number).map(|jump| jump.ways()).collect()
}

#[test]
fn jumps_with_a_condition_are_told_from_others() {
    let conditional = [
        "je     1120 <f+0x20>",
        "jnbe   1120",
        "jpo    1120",
        "jecxz  1120",
        "jrcxz  1120",
        "loop   1120",
        "loopne 1120",
        "jne,pn 1120",
        "bnd jae 1120",
        "data16 jo 1120",
    ];
    let others = [
        "jmp    1120",
        "jmpq   *%rax",
        "notrack jmp *%rax",
        "call   1120",
        "cmove  %rax,%rbx",
        "setne  %al",
        "ret",
        "repz ret",
        "",
    ];
    assert!(conditional.into_iter().all(is_conditional_jump));
    assert!(!others.into_iter().any(is_conditional_jump));
}

#[test]
fn a_listing_has_functions_by_their_symbols() {
    let functions = functions(LISTING).expect("a listing");
    let names: Vec<&str> = functions.iter().map(|f| f.name.as_str()).collect();
    assert_eq!(names, ["rules::first", "rules::second"]);
    let [first, second] = &functions[..] else {
        panic!("two functions");
    };
    let jumps = |f: &Function| f.jumps().collect::<Vec<usize>>();
    assert_eq!((jumps(first), jumps(second)), (vec![1, 4], vec![1, 2]));
    assert_eq!(
        [first.conditional_moves(), second.conditional_moves()],
        [1, 0]
    );
    let [compare, .., test, _, _, _] = &first.instructions[..] else {
        panic!("seven instructions");
    };
    assert_eq!(compare.source.as_deref(), Some("crates/rules/src/lib.rt:7"));
    assert_eq!(test.source.as_deref(), Some("crates/rules/src/lib.rt:9"));
    assert_eq!(second.instructions[0].source, None);
}

#[test]
fn code_without_symbols_is_told() {
    let stripped = LISTING.replace("<rules::first>:", "<.text>:");
    let complaint = functions(&stripped).expect_err("no symbols");
    assert!(complaint.contains("no symbols"), "{complaint}");
    assert!(functions("\nday:     file format elf64-x86-64\n").is_err());
}

#[test]
fn a_dump_counts_runs_and_jumps_of_the_program_alone() {
    let counts = counts(DUMP, day()).expect("a dump");
    let count = |executed, taken| Some(Count { executed, taken });
    assert_eq!(counts.get(&0x1103).copied(), count(3, 1));
    assert_eq!(counts.get(&0x1132).copied(), count(3, 0));
    assert_eq!(counts.get(&0x1138).copied(), None);
}

#[test]
fn what_is_no_such_dump_is_told() {
    let lines_only = DUMP.replace("positions: instr line", "positions: line");
    let complaint = counts(&lines_only, day()).expect_err("no instructions");
    assert!(complaint.contains("--dump-instr=yes"), "{complaint}");
    let uncounted = DUMP.replace("events: Ir", "events: Dr");
    assert!(counts(&uncounted, day()).is_err());
    assert!(counts("a text\n", day()).is_err());
    assert!(counts(&DUMP.replace("+21 0 1", "+x 0 1"), day()).is_err());
}

#[test]
fn jumps_go_both_ways_one_way_or_are_never_run() {
    let none = tally(&[]);
    assert_eq!(ways(&none, 0), [Ways::Never, Ways::Never]);
    let one = tally(&[DUMP]);
    assert_eq!(ways(&one, 0), [Ways::Both, Ways::Taken]);
    assert_eq!(ways(&one, 1), [Ways::Passed, Ways::Passed]);
}

#[test]
fn runs_are_added_up() {
    let both = tally(&[DUMP, LATER]);
    assert_eq!(ways(&both, 0), [Ways::Both, Ways::Taken]);
    assert_eq!(ways(&both, 1), [Ways::Both, Ways::Passed]);
    let sum = sum(&both);
    assert_eq!((sum.jumps(), sum.both, sum.taken, sum.passed), (4, 2, 1, 1));
    assert_eq!(
        sum.to_string(),
        "4 conditional jumps: 2 both ways, 2 one way (1 always taken, 1 never taken), \
         0 never run; 1 conditional moves"
    );
}

#[test]
fn counts_are_written_as_a_dump() {
    let mut all = counts(DUMP, day()).expect("a dump");
    add_all(&mut all, &counts(LATER, day()).expect("a dump"));
    let text = written(&all, day());
    assert_eq!(counts(&text, day()), Ok(all));
    assert_eq!(sum(&tally(&[&text])), sum(&tally(&[DUMP, LATER])));
}

/// Two programs that hold functions of one library, at addresses of their own.
#[test]
fn functions_of_a_library_are_found_in_the_programs_that_hold_them() {
    let moved = |dump: &str| {
        dump.replace("0x11", "0x51")
            .replace("/home/day", "/home/host")
    };
    let first = symbols("0000000000005100 t rules::first\n                 U memcpy\n");
    let second = symbols("0000000000001130 t rules::second\n0000000000001130 T alias\n");
    let mut tally = Tally::new(functions(LISTING).expect("a listing"));
    let counted = counts(&moved(DUMP), Path::new("host")).expect("a dump");
    tally.add(&first, &counted).expect("one place each");
    assert_eq!([tally.is_held(0), tally.is_held(1)], [true, false]);
    assert_eq!(ways(&tally, 0), [Ways::Both, Ways::Taken]);
    assert_eq!(ways(&tally, 1), [Ways::Never, Ways::Never]);
    assert!(table(&tally, 0).contains("| `rules::second`, in no program | 2 |"));
    let counted = counts(LATER, day()).expect("a dump");
    tally.add(&second, &counted).expect("one place each");
    assert_eq!(ways(&tally, 1), [Ways::Taken, Ways::Never]);
}

#[test]
fn functions_of_one_name_cannot_be_found() {
    let symbols = symbols("0000000000005100 t f\n0000000000005200 t f\n0000000000005300 d g\n");
    assert!(place(&symbols, "f").is_err());
    assert_eq!(place(&symbols, "g"), Ok(None));
}

#[test]
fn small_functions_stand_in_one_row() {
    let tally = tally(&[DUMP]);
    let rows = |least| table(&tally, least).lines().count() - 2;
    assert_eq!([rows(0), rows(2), rows(3)], [2, 2, 1]);
    assert!(table(&tally, 0).contains("| `rules::first` | 2 | 1 | 1 | 0 | 0 | 1 |\n"));
    assert!(table(&tally, 3).ends_with("| 2 others | 4 | 1 | 1 | 2 | 0 | 1 |\n"));
}

#[test]
fn the_list_has_what_stands_before_a_jump() {
    let text = list(&tally(&[DUMP]));
    let first = "0x110b rules::first+0xb: always taken, 2 times; crates/rules/src/lib.rt:9
    cmp    %rax,%rbx
    je     1120 <rules::first+0x20>
    cmovb  %rcx,%rdx
    test   %edi,%edi
    jne    1100 <rules::first>
";
    assert!(text.starts_with(first), "{text}");
    let next = "0x1132 rules::second+0x2: never taken, run 3 times\n    test   %esi,%esi\n";
    assert!(text.contains(next), "{text}");
    assert!(list(&tally(&[])).contains("+0x3: never run;"));
}
