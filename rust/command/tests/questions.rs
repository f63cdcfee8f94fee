//! Each question, with the exit statuses 0 to 2.

mod common;

use common::{example, run, Run};
use pedal::{LAST_STEP, LONGEST_DELAY, MOST_KINDS, MOST_OPERATIONS};

/// Two operations of delay 2 on one unit, with a bound and starts.
fn pair(units: usize, bound: usize, first: usize, second: usize) -> String {
    format!(
        "type mul units {units}\nop v1 mul delay 2\nop v2 mul delay 2\nbound {bound}\n\
         start v1 {first}\nstart v2 {second}\n"
    )
}

/// A chain of two operations, with a bound and starts.
fn chain(bound: usize, first: usize, second: usize) -> String {
    pair(2, bound, first, second) + "edge v1 v2\n"
}

/// A cycle of two operations.
const RING: &str = "type mul units 1\nop v1 mul\nop v2 mul\nedge v1 v2\nedge v2 v1\nbound 9\n\
                    start v1 1\nstart v2 2\n";

/// The answer of a run that must have ended with a status, and said nothing beside it.
fn answered(run: Run, status: i32) -> String {
    assert_eq!(run.err, "");
    assert_eq!(run.status, status);
    run.out
}

/// The refusal of a run, which must have printed nothing else.
fn refused(run: Run) -> String {
    assert_eq!(run.out, "");
    assert_eq!(run.status, 2);
    run.err
}

/// Asks a question about an example.
fn ask(question: &str, file: &str) -> String {
    answered(run(&[question, &example(file)], ""), 0)
}

/// The last column of a table, without its heading and the line below.
fn last_column(table: &str) -> Vec<&str> {
    let lines: Vec<&str> = table.lines().collect();
    let rows = &lines[1..lines.len() - 1];
    rows.iter()
        .filter_map(|row| row.split_whitespace().last())
        .collect()
}

/// Earliest starts, by name and aligned.
#[test]
fn asap() {
    let table = ask("asap", "eleven.pedal");
    assert!(
        table.starts_with("operation  type  delay  earliest\nv1         mul       1         1\n")
    );
    let starts = ["1", "1", "2", "3", "4", "1", "2", "1", "2", "1", "2"];
    assert_eq!(last_column(&table), starts);
    assert!(table.ends_with("\nlatency 4\n"));
}

/// Latest starts.
#[test]
fn alap() {
    let table = ask("alap", "eleven.pedal");
    let starts = ["1", "1", "2", "3", "4", "2", "3", "3", "4", "3", "4"];
    assert_eq!(last_column(&table), starts);
    assert!(table.ends_with("\nbound 4\n"));
}

/// Mobility, beside both tables.
#[test]
fn mobility() {
    let table = ask("mobility", "eleven.pedal");
    let free = ["0", "0", "0", "0", "0", "1", "1", "2", "2", "2", "2"];
    assert_eq!(last_column(&table), free);
    assert!(table.contains("\nv8         mul       1         1       3         2\n"));
}

/// The list schedule.
#[test]
fn list() {
    let table = ask("list", "eleven.pedal");
    let starts = ["1", "1", "2", "3", "4", "2", "3", "3", "4", "1", "2"];
    assert_eq!(last_column(&table), starts);
    assert!(table.ends_with("\nlatency 4\n"));
}

/// The list schedule step by step.
#[test]
fn watch() {
    assert_eq!(
        ask("watch", "eleven.pedal"),
        "step  starts     on mul (of 2)  on alu (of 2)\n   \
            1  v1 v2 v10  v1 v2          v10\n   \
            2  v3 v6 v11  v3 v6          v11\n   \
            3  v4 v7 v8   v7 v8          v4\n   \
            4  v5 v9                     v5 v9\n\
         all placed, latency 4\n"
    );
}

/// Peak use, with and without units.
#[test]
fn peak() {
    let table = answered(run(&["peak"], &pair(1, 4, 1, 2)), 0);
    assert_eq!(table, "type  units  peak\nmul       1     2\n");
    let text = pair(1, 4, 0, 65535).replace(" units 1", "");
    let table = answered(run(&["peak", "-"], &text), 0);
    assert_eq!(table, "type  units  peak\nmul       -     1\n");
}

/// A lawful schedule.
#[test]
fn check_lawful() {
    assert_eq!(answered(run(&["check"], &pair(1, 4, 1, 3)), 0), "lawful\n");
}

/// Every kind of fault, in words.
#[test]
fn check_faults() {
    let said = |text: &str| answered(run(&["check"], text), 1);
    assert_eq!(
        said(&pair(1, 4, 1, 2)),
        "fault: type mul over-used at step 2: v1, v2 run on 1 unit\n"
    );
    assert_eq!(
        said(&pair(1, 4, 1, 4)),
        "fault: v2 starts at step 4 and runs to step 5, past the bound 4\n"
    );
    assert_eq!(
        said(&pair(1, 4, 0, 3)),
        "fault: v1 starts at step 0, and steps count from 1\n"
    );
    assert_eq!(
        said(&chain(4, 1, 2)),
        "fault: edge v1 -> v2 is broken: v2 starts at step 2, but v1 runs to the end of step 2\n"
    );
}

/// The bench fault is caught.
#[test]
fn check_bench_fault() {
    let run = run(&["check", &example("bench-fault.pedal")], "");
    assert_eq!(
        answered(run, 1),
        "fault: edge request_b -> compare is broken: compare starts at step 8, but request_b \
         runs to the end of step 8\n"
    );
}

/// All schedules, with their number.
#[test]
fn all() {
    let listed = answered(run(&["all"], &pair(1, 5, 1, 3)), 0);
    assert_eq!(
        listed,
        "schedule  v1  v2\n       \
                1   1   3\n       \
                2   1   4\n       \
                3   2   4\n       \
                4   3   1\n       \
                5   4   1\n       \
                6   4   2\n\
         6 schedules\n"
    );
}

/// A limit ends the listing; one that is not reached changes nothing.
#[test]
fn all_limited() {
    let text = pair(1, 5, 1, 3);
    let few = answered(run(&["all", "--limit", "2"], &text), 0);
    assert_eq!(few.lines().count(), 4);
    assert!(few.ends_with("\n2 shown, the limit; there may be more\n"));
    let whole = answered(run(&["all", "--limit", "7"], &text), 0);
    assert!(whole.ends_with("\n6 schedules\n"));
}

/// No schedule at all is status 1.
#[test]
fn all_none() {
    let listed = answered(run(&["all"], &pair(1, 3, 1, 3)), 1);
    assert_eq!(listed, "schedule  v1  v2\nno lawful schedule\n");
}

/// A graph without operations has one schedule.
#[test]
fn all_empty() {
    let listed = answered(run(&["all"], "bound 0\n"), 0);
    assert_eq!(listed, "schedule\n       1\n1 schedule\n");
}

/// All lawful schedules of the eleven-operation graph at bound 5.
#[test]
fn all_eleven() {
    let text = std::fs::read_to_string(example("eleven.pedal")).unwrap();
    let listed = answered(run(&["all"], &text.replace("bound 4", "bound 5")), 0);
    assert_eq!(listed.lines().count(), 882);
    assert!(listed.ends_with("\n880 schedules\n"));
}

/// Tables for machines.
#[test]
fn csv() {
    let text = pair(1, 4, 1, 3);
    let said = |question: &str| answered(run(&[question, "--csv"], &text), 0);
    assert_eq!(
        said("asap"),
        "operation,type,delay,earliest\nv1,mul,2,1\nv2,mul,2,1\n"
    );
    assert_eq!(
        said("alap"),
        "operation,type,delay,latest\nv1,mul,2,3\nv2,mul,2,3\n"
    );
    assert_eq!(
        said("mobility"),
        "operation,type,delay,earliest,latest,mobility\nv1,mul,2,1,3,2\nv2,mul,2,1,3,2\n"
    );
    assert_eq!(
        said("list"),
        "operation,type,delay,start\nv1,mul,2,1\nv2,mul,2,3\n"
    );
    assert_eq!(said("watch"), "step,starts,mul\n1,v1,v1\n2,,v1\n3,v2,v2\n");
    assert_eq!(said("peak"), "type,units,peak\nmul,1,1\n");
    assert_eq!(said("all"), "schedule,v1,v2\n1,1,3\n2,3,1\n");
}

/// Verdicts for machines.
#[test]
fn csv_verdicts() {
    let said = |text: &str, status| {
        let out = answered(run(&["check", "--csv"], text), status);
        let row = out.strip_prefix("finding,operation,from,to,step,type\n");
        row.expect("a heading").to_string()
    };
    assert_eq!(said(&pair(1, 4, 1, 3), 0), "lawful,,,,,\n");
    assert_eq!(said(&pair(1, 4, 1, 4), 1), "untimely,v2,,,,\n");
    assert_eq!(said(&chain(4, 1, 2), 1), "broken,,v1,v2,,\n");
    assert_eq!(said(&pair(1, 4, 1, 2), 1), "over-use,,,,2,mul\n");
}

/// Names that would be misread for machines are quoted.
#[test]
fn csv_quotes() {
    let text = "type a\"b units 1\nop v,1 a\"b\n";
    let table = answered(run(&["list", "--csv"], text), 0);
    assert_eq!(
        table,
        "operation,type,delay,start\n\"v,1\",\"a\"\"b\",1,1\n"
    );
}

/// Lines may come in any order, with comments, blank lines and Windows line ends.
#[test]
fn lines_in_any_order() {
    let text =
        "\u{feff}edge v1 v2 # first\r\n\r\nop v1 mul\r\n  op\tv2 mul\r\n#\r\ntype mul units 1";
    let table = answered(run(&["list", "--csv"], text), 0);
    assert_eq!(
        table,
        "operation,type,delay,start\nv1,mul,1,1\nv2,mul,1,2\n"
    );
}

/// A cycle is refused by every question, with its operations by name.
#[test]
fn cycles_are_refused() {
    for question in [
        "asap", "alap", "mobility", "list", "watch", "check", "peak", "all",
    ] {
        assert_eq!(
            refused(run(&[question], RING)),
            "pedal: refusal 7: the graph has a cycle: v1 -> v2 -> v1 (place 2)\n"
        );
    }
}

/// Other refusals, with number, place and words.
#[test]
fn refusals() {
    let text = |delay: usize, units: usize, bound: usize| {
        format!("type mul units {units}\nop v1 mul delay {delay}\nbound {bound}\n")
    };
    let (long, late) = (usize::from(LONGEST_DELAY) + 1, LAST_STEP + 1);
    assert_eq!(
        refused(run(&["asap"], &text(long, 1, 4))),
        format!(
            "pedal: refusal 3: operation v1: the delay is outside 1 to {LONGEST_DELAY}, or its \
             type is not below 1 (delay {long}, type 0) (place 0)\n"
        )
    );
    assert_eq!(
        refused(run(&["list"], &text(1, 0, 4))),
        "pedal: refusal 6: type mul is in use and has no unit (place 0)\n"
    );
    assert_eq!(
        refused(run(&["alap"], &text(1, 1, late))),
        format!("pedal: refusal 8: the bound {late} is above {LAST_STEP} (place 0)\n")
    );
    assert_eq!(
        refused(run(&["all"], &text(2, 1, 1))),
        "pedal: refusal 9: the bound 1 is below the ASAP latency 2 (place 0)\n"
    );
}

/// Too many operations, types or schedules are refused.
#[test]
fn large_graphs_are_refused() {
    let many: String = (0..=MOST_OPERATIONS)
        .map(|number| format!("op v{number} mul\n"))
        .collect();
    let said = refused(run(&["asap"], &(many + "type mul units 1\n")));
    let operations = format!("operations {}", MOST_OPERATIONS + 1);
    assert!(said.contains("refusal 1: ") && said.contains(&operations));
    let kinds: String = (0..=MOST_KINDS)
        .map(|number| format!("type t{number} units 1\n"))
        .collect();
    let types = format!("types {}", MOST_KINDS + 1);
    assert!(refused(run(&["list"], &kinds)).contains(&types));
    let free: String = (0..20)
        .map(|number| format!("op v{number} mul\n"))
        .collect();
    let said = refused(run(&["all"], &(free + "type mul units 20\nbound 2\n")));
    assert!(said.starts_with("pedal: refusal 10: "));
}

/// The version, as it stands in the package.
#[test]
fn version() {
    let version = format!("pedal {}\n", env!("CARGO_PKG_VERSION"));
    for word in ["--version", "-V"] {
        assert_eq!(answered(run(&[word], ""), 0), version);
    }
}

/// The text behind a mark in the help text, up to the next line that is not indented.
fn indented(help: &str, mark: &str) -> String {
    let (_, after) = help.split_once(mark).expect(mark);
    let lines = after.trim_start_matches('\n').lines();
    let lines = lines.take_while(|line| line.starts_with("  "));
    lines.map(|line| format!("{}\n", &line[2..])).collect()
}

/// Every example in the help text prints what it says there.
#[test]
fn help_is_true() {
    let help = answered(run(&["--help"], ""), 0);
    let file = indented(&help, "# begins a comment:\n");
    let mut tried = 0;
    for (place, _) in help.match_indices("\n  $ pedal ") {
        let rest = &help[place + "\n  $ pedal ".len()..];
        let (words, _) = rest.split_once('\n').expect("a line");
        let words: Vec<&str> = words
            .split(' ')
            .filter(|&word| word != "sum.pedal")
            .collect();
        let refusal = words == ["alap"];
        let bound = if refusal { "bound 2 " } else { "bound 5 " };
        let run = run(&words, &file.replace("bound 5 ", bound));
        let printed = indented(rest, "\n");
        assert_eq!(
            if refusal { run.err } else { run.out },
            printed,
            "{words:?}"
        );
        tried += 1;
    }
    assert_eq!(tried, 6);
}
