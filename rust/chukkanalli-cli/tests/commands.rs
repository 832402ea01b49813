//! Every command on good input: all that it prints, and its status.

mod common;

use common::{program, run, run_line, table, Run};
use std::os::fd::OwnedFd;
use std::os::unix::net::UnixStream;

/// A run that goes well and prints this.
fn prints(text: &str) -> Run {
    Run { status: 0, out: text.to_string(), err: String::new() }
}

#[test]
fn evaluate_prints_worths_best_values_and_nash_conv() {
    let text = "\
samples/always-pass.txt: Kuhn with 2 seats, D 1, 6 units, read by labels

                   units  chips per hand  in decimals
seat 0 worth           0               0  0.000000000
seat 0 best value      6               1  1.000000000
seat 1 worth           0               0  0.000000000
seat 1 best value      6               1  1.000000000
NashConv              12               2  2.000000000
";
    assert_eq!(run_line("evaluate kuhn 2 1 samples/always-pass.txt"), prints(text));
}

#[test]
fn games_have_their_names_in_any_case_of_letters() {
    for game in ["kuhn", "Kuhn", "KUHN", "kUHN", "leduc", "Leduc", "LEDUC"] {
        let plain = run_line(&format!("template {} 2 3", game.to_lowercase()));
        assert_eq!((plain.status, plain.err.as_str()), (0, ""));
        assert_eq!(run_line(&format!("template {game} 2 3")), plain);
    }
}

#[test]
fn evaluate_prints_exact_fractions_table_after_table() {
    let text = "\
samples/equilibrium.txt: Kuhn with 2 seats, D 3, 162 units, read by labels

                   units  chips per hand   in decimals
seat 0 worth          -9           -1/18  -0.055555556
seat 0 best value     -9           -1/18  -0.055555556
seat 1 worth           9            1/18   0.055555556
seat 1 best value      9            1/18   0.055555556
NashConv               0               0   0.000000000

samples/one-in-three.txt: Kuhn with 2 seats, D 3, 162 units, read by labels

                   units  chips per hand   in decimals
seat 0 worth          12            2/27   0.074074074
seat 0 best value    108             2/3   0.666666667
seat 1 worth         -12           -2/27  -0.074074074
seat 1 best value     90             5/9   0.555555556
NashConv             198            11/9   1.222222222
";
    let run = run_line("evaluate kuhn 2 3 samples/equilibrium.txt samples/one-in-three.txt");
    assert_eq!(run, prints(text));
}

#[test]
fn reply_tells_the_action_of_each_set() {
    let text = "\
samples/always-pass.txt: Kuhn with 2 seats, D 1, 6 units, read by labels

                   units  chips per hand  in decimals
seat 0 gain            6               1  1.000000000
seat 0 worth           0               0  0.000000000
seat 0 best value      6               1  1.000000000

the reply of seat 0 beats this table; it is no correction of it

the perfect reply of seat 0:
card 0, first action of the hand: BET
card 1, first action of the hand: BET
card 2, first action of the hand: PASS

in sets that no hand reaches while the others play this table:
card 0, after PASS BET: PASS
card 1, after PASS BET: PASS
card 2, after PASS BET: PASS
";
    assert_eq!(run_line("reply kuhn 2 1 samples/always-pass.txt 0"), prints(text));
}

#[test]
fn the_table_of_a_reply_is_taken_by_every_command() {
    for (format, name) in [("text", "replied.txt"), ("csv", "replied.csv")] {
        let reply = run_line(&format!("reply kuhn 2 3 samples/one-in-three.txt 1 --table --format {format}"));
        assert_eq!((reply.status, reply.err.as_str()), (0, ""));
        let file = table(name, &reply.out);
        let evaluated = run(["evaluate", "--labelled", &file]);
        assert!(evaluated.out.contains("\nseat 1 worth          90             5/9 "), "{}", evaluated.out);
        assert!(evaluated.out.contains("\nseat 1 best value     90             5/9 "), "{}", evaluated.out);
        for command in ["ladder", "explain"] {
            assert_eq!(run([command, &file]).status, 0, "{command}");
        }
        assert_eq!(run(["reply", "kuhn", "2", "3", &file, "1", "--table", "--format", format]).out, reply.out);
    }
    let json = run_line("reply kuhn 2 3 samples/one-in-three.txt 1 --table --format json");
    let said = "chukkanalli: reply: --table prints text or csv, and --format is 'json'\n";
    assert_eq!((json.status, json.err.starts_with(said)), (2, true), "{}", json.err);
    let refused = run_line("reply kuhn 2 3 samples/always-pass.txt 1 --table");
    assert_eq!((refused.status, refused.out.as_str()), (1, ""));
}

#[test]
fn improve_tells_which_part_to_move() {
    let text = "\
samples/one-in-three.txt: Kuhn with 2 seats, D 3, 162 units, read by labels

          units  chips per hand  in decimals
NashConv    198            11/9  1.222222222

what moving one part does to NashConv, the moves that lower it most first:
NashConv  change  chips per hand  the line in the file
     144     -54            -1/3  1 2  # PASS BET: seat 1, card 2, after BET
     162     -36            -2/9  1 2  # PASS BET: seat 0, card 2, after PASS BET
7 moves more lower it; --all shows every move

With card 2 after BET, seat 1 bets 1 hand in 3; one part from PASS to BET lowers NashConv by 1/3 of a chip.
With card 2 after PASS BET, seat 0 bets 1 hand in 3; one part from PASS to BET lowers NashConv by 2/9 of a chip.
";
    for jobs in ["1", "3"] {
        assert_eq!(run_line(&format!("improve kuhn 2 3 samples/one-in-three.txt --top 2 --jobs {jobs}")), prints(text));
    }
    let all = run_line("improve kuhn 2 3 samples/one-in-three.txt --all");
    assert_eq!(all.out.lines().filter(|line| line.contains("  # PASS BET: seat ")).count(), 24);
    let done = run_line("improve kuhn 2 3 samples/equilibrium.txt");
    assert!(done.out.ends_with("\nNashConv is 0: this table cannot be beaten from any seat\n"), "{}", done.out);
    let folder = run_line("improve kuhn 2 3 samples");
    assert_eq!((folder.status, folder.err.contains("this is a folder, not a table")), (1, true));
}

/// The moves of `--steps` put into the file one after another give the NashConv that is told, and the table that is printed.
#[test]
fn the_steps_of_improve_are_a_table() {
    let improved = run_line("improve kuhn 2 3 samples/one-in-three.txt --steps 30");
    let steps: Vec<&str> = improved.out.lines().filter_map(|line| line.strip_prefix("# step ")).collect();
    assert_eq!(steps.len(), 8);
    assert!(improved.out.contains("\n# no further move of one part lowers NashConv, which is above 0\n"));
    let mut text = std::fs::read_to_string(common::root().join("samples/one-in-three.txt")).unwrap();
    for step in steps {
        let (conv, line) = step.split_once(" chips per hand: ").unwrap();
        let label = line.split_once("# ").unwrap().1;
        let old = text.lines().find(|line| line.ends_with(label)).unwrap().to_string();
        text = text.replace(&old, line);
        let evaluated = run(["evaluate", "kuhn", "2", "3", &table("stepped.txt", &text)]);
        let conv = conv.split_once("NashConv ").unwrap().1.split_once(',').unwrap().0;
        let told = evaluated.out.lines().find(|line| line.starts_with("NashConv")).unwrap();
        assert_eq!(told.split_whitespace().nth(1), Some(conv));
    }
    let whole = run(["evaluate", "--labelled", &table("improved.txt", &improved.out)]);
    assert!(whole.out.ends_with("\nNashConv              15            5/54  0.092592593\n"), "{}", whole.out);
    for format in ["text", "csv"] {
        let alone =
            run_line(&format!("improve kuhn 2 3 samples/one-in-three.txt --steps 30 --table --format {format}"));
        let alone = run(["evaluate", "--labelled", &table("alone.txt", &alone.out)]);
        assert_eq!(alone.out.lines().last(), whole.out.lines().last());
    }
    let one = run_line("improve kuhn 2 3 samples/one-in-three.txt --table").out;
    assert!(one.contains("\n1 2  # PASS BET: seat 1, card 2, after BET\n"), "{one}");
}

/// Perturbed equilibria come back by greedy steps.
#[test]
fn greedy_steps_mend_a_perturbed_equilibrium() {
    let equilibrium = std::fs::read_to_string(common::root().join("samples/equilibrium.txt")).unwrap();
    let perturbed = equilibrium.replacen("\n3 0 ", "\n2 1 ", 1).replacen("\n0 3 ", "\n1 2 ", 1);
    let improved = run(["improve", "kuhn", "2", "3", &table("perturbed.txt", perturbed), "--steps", "10"]);
    assert!(
        improved.out.contains("\n# NashConv is 0: this table cannot be beaten from any seat\n"),
        "{}",
        improved.out
    );
}

#[test]
fn explain_tells_which_sets_carry_the_gain() {
    let text = "\
samples/one-in-three.txt: Kuhn with 2 seats, D 3, 162 units, read by labels

                   units  chips per hand   in decimals
seat 1 gain          102           17/27   0.629629630
seat 1 worth         -12           -2/27  -0.074074074
seat 1 best value     90             5/9   0.555555556

what each set of seat 1 adds when it is switched to the reply, after the sets that can follow it:
units  chips per hand  table  reply  set
   36             2/9  2 1    BET    card 2, after BET
   24            4/27  2 1    BET    card 0, after PASS
4 sets more add 42 units; --all shows every set

With card 2 after BET it bets 1 hand in 3; betting always gains 2/9 of a chip.
With card 0 after PASS it bets 1 hand in 3; betting always gains 4/27 of a chip.
";
    for line in ["explain kuhn 2 3 samples/one-in-three.txt", "explain --jobs 1 KUHN 2 3 samples/one-in-three.txt"] {
        let line = format!("{line} --seat 1 --top 2");
        assert_eq!(run_line(&line), prints(text), "{line}");
    }
}

#[test]
fn explain_marks_ties_and_what_no_hand_reaches() {
    let told = run_line("explain kuhn 2 1 samples/always-pass.txt --seat 0 --all");
    let sets: Vec<&str> = told.out.lines().skip_while(|line| !line.starts_with("units")).take(8).collect();
    let rows = [
        "units  chips per hand  table  reply  set",
        "    4             2/3  1 0    BET    card 0, first action of the hand",
        "    2             1/3  1 0    BET    card 1, first action of the hand",
        "    0               0  1 0    PASS   card 2, first action of the hand (the table does so)",
        "    0               0  1 0    PASS   card 0, after PASS BET (no hand reaches it)",
        "    0               0  1 0    PASS   card 1, after PASS BET (no hand reaches it)",
        "    0               0  1 0    PASS   card 2, after PASS BET (no hand reaches it)",
        "",
    ];
    assert_eq!(sets, rows);
    let told = run_line("explain kuhn 2 3 samples/equilibrium.txt --all");
    assert!(told.out.contains("\nthe table cannot be beaten from seat 0\n"), "{}", told.out);
    assert!(told.out.contains(" (a tie: another action is as good)\n"), "{}", told.out);
    let bets = table("bets.txt", "0 3\n".repeat(12));
    let told = run(["explain", "kuhn", "2", "3", &bets, "--all"]);
    assert!(told.out.contains("card 0, after PASS BET (its own play never gets there)\n"), "{}", told.out);
    let short = run_line("explain kuhn 2 3 samples/equilibrium.txt");
    assert_eq!((short.status, short.out.contains("units  chips per hand  table")), (0, false));
}

#[test]
fn explain_refuses_seats_and_tables() {
    let misuse = run_line("explain kuhn 2 3 samples/one-in-three.txt --seat 2");
    assert_eq!(misuse.status, 2);
    assert!(misuse.err.starts_with("chukkanalli: explain: --seat is '2': refused with 5: "), "{}", misuse.err);
    let run = run_line("explain kuhn 2 3 nowhere.txt samples/one-in-three.txt samples/always-pass.txt --seat 0");
    assert_eq!((run.status, run.err.lines().count()), (1, 2));
    assert!(run.out.starts_with("samples/one-in-three.txt: Kuhn"), "{}", run.out);
}

#[test]
fn reply_goes_by_the_cards_whatever_the_order_of_the_sets() {
    let reply = run_line("reply kuhn 2 1 samples/always-pass.txt 1");
    let lines: Vec<&str> = reply.out.lines().skip_while(|line| !line.starts_with("card")).collect();
    let text = [
        "card 0, after PASS: BET",
        "card 1, after PASS: BET",
        "card 2, after PASS: PASS",
        "",
        "in sets that no hand reaches while the others play this table:",
        "card 0, after BET: PASS",
        "card 1, after BET: PASS",
        "card 2, after BET: PASS",
    ];
    assert_eq!(lines, text);
}

#[test]
fn reply_in_leduc_tells_the_public_card_and_both_rounds() {
    let always_first = table("leduc-first.txt", always_first("leduc", 2, 4));
    let reply = run(["reply", "leduc", "2", "4", &always_first, "1"]);
    assert_eq!((reply.status, reply.err.as_str()), (0, ""));
    let lines: Vec<&str> = reply.out.lines().filter(|line| line.starts_with("card")).collect();
    assert_eq!(lines.len(), 468);
    let raise = "card 5 (rank 2), public card 0 (rank 0), after CALL CALL, in round 2 after CALL: RAISE";
    assert!(lines.contains(&raise), "{}", reply.out);
    assert!(lines[0].starts_with("card 0 (rank 0), no public card, after CALL: "), "{}", lines[0]);
    assert!(lines.iter().all(|line| ["FOLD", "CALL", "RAISE"].contains(&line.rsplit(": ").next().unwrap())));
}

#[test]
fn ladder_ranks_by_nash_conv_with_equals_together() {
    let same = table("same.txt", std::fs::read(common::root().join("samples/one-in-three.txt")).unwrap());
    let passes = table("passes.txt", "3 0\n".repeat(12));
    let run = run(["ladder", "kuhn", "2", "3", &passes, &same, "samples/equilibrium.txt", "samples/one-in-three.txt"]);
    let width = same.len().max(passes.len());
    let padded = |name: &str| format!("{name:width$}");
    let same = padded(&same);
    let text = format!(
        "\
Kuhn with 2 seats, D 3, 162 units

rank  NashConv  chips per hand  in decimals  table
   1         0               0  0.000000000  {equilibrium}  read by labels
   2       198            11/9  1.222222222  {same}  read by labels
   2       198            11/9  1.222222222  {one_in_three}  read by labels, same table as {first}
   4       324               2  2.000000000  {passes}  read by position
",
        equilibrium = padded("samples/equilibrium.txt"),
        one_in_three = padded("samples/one-in-three.txt"),
        first = same.trim_end(),
        passes = padded(&passes),
    );
    assert_eq!(run, prints(&text));
}

#[test]
fn ladder_lists_what_it_cannot_rank() {
    let run = run_line("ladder kuhn 2 3 nowhere.txt samples/equilibrium.txt samples/always-pass.txt");
    let sum = "samples/always-pass.txt:5: refused with 8: in some set the parts do not add up to D: \
               every set adds up to 1, and D is 3; is its D 1?";
    let missing = "nowhere.txt: there is no such file";
    let text = format!(
        "\
Kuhn with 2 seats, D 3, 162 units

rank  NashConv  chips per hand  in decimals  table
   1         0               0  0.000000000  samples/equilibrium.txt  read by labels

not ranked:
{missing}
{sum}
"
    );
    let err = format!("chukkanalli: {missing}\nchukkanalli: {sum}\n");
    assert_eq!(run, Run { status: 1, out: text, err });
}

#[test]
fn ladder_without_a_ranked_table_still_lists_all() {
    let bare = table("bare.txt", "3 0\n".repeat(12));
    let run = run(["ladder", "leduc", "2", "3", "nowhere.txt", &bare]);
    let length = format!(
        "{bare}:12: refused with 7: the table's or profile's length is not exactly the entry count: \
         24 numbers, and Leduc with 2 seats has 2184 entries"
    );
    let missing = "nowhere.txt: there is no such file";
    let text = format!("Leduc with 2 seats, D 3\n\nnot ranked:\n{missing}\n{length}\n");
    let err = format!("chukkanalli: {missing}\nchukkanalli: {length}\n");
    assert_eq!(run, Run { status: 1, out: text, err });
}

/// The template of a game, filled in with all parts on each first action.
fn always_first(game: &str, seats: usize, d: usize) -> String {
    run_line(&format!("template {game} {seats} {d}")).out.replace("\n0 ", &format!("\n{d} "))
}

#[test]
fn a_template_is_an_empty_table_of_its_game() {
    for (game, seats, d, sets) in
        [("kuhn", 2, 1, 12), ("kuhn", 3, 64, 48), ("kuhn", 4, 7, 160), ("kuhn", 5, 16, 480), ("leduc", 2, 64, 936)]
    {
        let template = run_line(&format!("template {game} {seats} {d}"));
        assert_eq!((template.status, template.err.as_str()), (0, ""));
        assert_eq!(template.out.lines().filter(|line| line.starts_with("0 0 ")).count(), sets);
        let evaluate = |file: &str| run(["evaluate", game, &seats.to_string(), &d.to_string(), file]);
        let unfilled = evaluate(&table(&format!("template-{game}-{seats}-{d}.txt"), &template.out));
        assert_eq!(unfilled.status, 1);
        assert!(unfilled.err.contains(":5: refused with 8: "), "{}", unfilled.err);
        let filled = evaluate(&table(&format!("filled-{game}-{seats}-{d}.txt"), always_first(game, seats, d)));
        assert_eq!((filled.status, filled.err.as_str()), (0, ""));
    }
    let kuhn = run_line("template kuhn 2 1").out;
    assert!(kuhn.contains("\n0 0  # PASS BET: seat 1, card 1, after PASS\n"), "{kuhn}");
    let leduc = run_line("template leduc 2 4").out;
    let line = "\n0 0 0  # FOLD CALL RAISE: seat 0, card 0 (rank 0), no public card, after CALL RAISE\n";
    assert!(leduc.contains(line), "{leduc}");
}

#[test]
fn f64_prints_the_five_values_with_all_their_digits() {
    let text = "\
samples/uniform-profile.txt: Kuhn with 2 seats, chips per hand in f64, read by labels

seat 0 best response value  0.5
seat 1 best response value  0.4166666666666666
seat 0 worth                0.12500000000000003
seat 1 worth                -0.12500000000000003
NashConv                    0.9166666666666666
exploitability              0.4583333333333333
";
    assert_eq!(run_line("f64 kuhn 2 samples/uniform-profile.txt"), prints(text));
}

#[test]
fn f64_takes_numbers_of_any_kind() {
    let infinite = table("infinite.txt", "inf 0\n".to_string() + &"1e0 -0.0 # a set\n".repeat(11));
    let text = format!(
        "\
{infinite}: Kuhn with 2 seats, chips per hand in f64, read by position, whatever its numbers add up to

seat 0 best response value  1.0
seat 1 best response value  inf
seat 0 worth                -inf
seat 1 worth                inf
NashConv                    NaN
exploitability              NaN
"
    );
    assert_eq!(run(["f64", "kuhn", "2", &infinite, "--any"]), prints(&text));
    let tiny = table("tiny.txt", "1e-300 nan\n".repeat(12));
    let out = run(["f64", "kuhn", "2", &tiny, "--any"]).out;
    assert!(out.lines().skip(2).all(|line| line.ends_with(" NaN")), "{out}");
    let small = table("small.txt", "1e-30 0\n".repeat(12));
    let out = run(["f64", "kuhn", "2", &small, "--any"]).out;
    assert!(out.contains("\nseat 0 best response value  1e-30\n"), "{out}");
}

#[test]
fn f64_takes_a_table_with_d_1_in_every_game() {
    for (game, seats) in [("kuhn", 3), ("kuhn", 4), ("kuhn", 5), ("kuhn", 6), ("leduc", 2)] {
        let file = table(&format!("f64-{game}-{seats}.txt"), always_first(game, seats, 1));
        let values = run(["f64", game, &seats.to_string(), &file]);
        assert_eq!((values.status, values.err.as_str()), (0, ""));
        assert_eq!(values.out.lines().count(), 2 + 2 * seats + 2);
        let exact = run(["evaluate", game, &seats.to_string(), "1", &file]).out;
        let last = |text: &str| text.lines().find(|line| line.starts_with("NashConv")).map(number_at_the_end).unwrap();
        assert!((last(&values.out) - last(&exact)).abs() < 1e-8, "{}{exact}", values.out);
    }
}

fn number_at_the_end(line: &str) -> f64 {
    line.rsplit(' ').next().unwrap().parse().unwrap()
}

#[test]
fn byte_order_marks_and_line_ends_change_nothing_in_a_profile() {
    let plain = "# half\n".to_string() + &"0.5 0.5 # a set\n".repeat(12);
    let values = |file: &str| run(["f64", "kuhn", "2", file]).out.lines().skip(2).collect::<Vec<_>>().join("\n");
    let expected = values("samples/uniform-profile.txt");
    assert!(expected.contains("NashConv"));
    assert_eq!(values(&table("half.txt", &plain)), expected);
    assert_eq!(values(&table("half-crlf.txt", plain.replace('\n', "\r\n"))), expected);
    assert_eq!(values(&table("half-bom.txt", format!("\u{feff}{plain}"))), expected);
    assert_eq!(values(&table("half-one-line.txt", "0.5 ".repeat(24).trim_end())), expected);
}

#[test]
fn byte_order_marks_and_line_ends_change_nothing() {
    let plain = "# all PASS\n".to_string() + &"1 0 # a set\n".repeat(12);
    let figures =
        |file: &str| run(["evaluate", "kuhn", "2", "1", file]).out.lines().skip(1).collect::<Vec<_>>().join("\n");
    let expected = figures(&table("plain.txt", &plain));
    assert!(expected.contains("NashConv"));
    assert_eq!(figures(&table("crlf.txt", plain.replace('\n', "\r\n"))), expected);
    assert_eq!(figures(&table("bom.txt", format!("\u{feff}{plain}"))), expected);
    assert_eq!(figures(&table("both.txt", format!("\u{feff}{}", plain.replace('\n', "\r\n")))), expected);
    assert_eq!(figures(&table("one-line.txt", "1 0 ".repeat(12).trim_end())), expected);
}

#[test]
fn what_is_printed_does_not_depend_on_the_threads() {
    let mut files: Vec<String> = (0..20)
        .map(|k| {
            let parts = (0..160).map(|set| format!("{} {}\n", (k * set) % 8, 7 - (k * set) % 8));
            table(&format!("threads-{k}.txt"), parts.collect::<String>())
        })
        .collect();
    files.insert(7, "nowhere.txt".to_string());
    files.insert(3, table("threads-odd.txt", "1 0\n"));
    for command in ["evaluate", "ladder"] {
        let with = |jobs: &str| {
            run([command, "kuhn", "4", "7", "--jobs", jobs].into_iter().chain(files.iter().map(String::as_str)))
        };
        let one = with("1");
        assert_eq!(one.status, 1);
        assert_eq!(one.err.lines().count(), 2);
        for jobs in ["2", "3", "64", "18446744073709551616"] {
            assert_eq!(with(jobs), one);
        }
        assert_eq!(run([command, "kuhn", "4", "7"].into_iter().chain(files.iter().map(String::as_str))), one);
    }
}

#[test]
fn kuhn_with_6_seats_shows_no_progress_in_a_pipe() {
    let file = table("kuhn6.txt", always_first("kuhn", 6, 16));
    let other = table("kuhn6-too.txt", always_first("kuhn", 6, 16));
    let evaluated = run(["evaluate", "kuhn", "6", "16", &file, &other, "--jobs=2"]);
    assert_eq!((evaluated.status, evaluated.err.as_str()), (0, ""));
    assert!(evaluated.out.contains("NashConv           2659938529915699200              30  30.000000000\n"));
}

#[test]
fn help_is_there_for_each_and_for_all() {
    for line in ["--help", "-h", "help"] {
        let help = run_line(line);
        assert_eq!((help.status, help.err.as_str()), (0, ""));
        assert!(help.out.contains("chukkanalli help COMMAND"));
    }
    for command in ["evaluate", "ladder", "reply", "explain", "improve", "template"] {
        let help = run([command, "kuhn", "--help"]);
        assert_eq!((help.status, help.err.as_str()), (0, ""));
        assert!(help.out.starts_with(&format!("chukkanalli {command} GAME SEATS D")));
    }
    let help = run_line("f64 --help");
    assert_eq!((help.status, help.err.as_str()), (0, ""));
    assert!(help.out.starts_with("chukkanalli f64 GAME SEATS PROFILE [OPTIONS]\n"));
}

/// Runs the words of a line with an output that nobody reads any more.
fn run_unread(line: &str) -> Run {
    let (reader, output) = UnixStream::pair().unwrap();
    drop(reader);
    program().args(line.split_whitespace()).stdout(OwnedFd::from(output)).output().unwrap().into()
}

#[test]
fn a_reader_that_leaves_early_is_no_fault() {
    for line in ["template kuhn 6 16", "evaluate kuhn 2 1 samples/always-pass.txt", "--help"] {
        assert_eq!(run_unread(line), prints(""), "{line}");
    }
}

#[test]
fn a_refused_table_is_told_even_if_the_reader_leaves_early() {
    for command in ["evaluate", "ladder"] {
        let run = run_unread(&format!("{command} kuhn 2 1 nowhere.txt samples/always-pass.txt"));
        let err = "chukkanalli: nowhere.txt: there is no such file\n".to_string();
        assert_eq!(run, Run { status: 1, out: String::new(), err }, "{command}");
    }
}

#[test]
fn an_output_that_cannot_be_written_is_told() {
    let full = std::fs::OpenOptions::new().write(true).open("/dev/full").unwrap();
    let run: Run = program().args(["template", "kuhn", "2", "1"]).stdout(full).output().unwrap().into();
    assert_eq!(run.status, 1);
    assert!(run.err.starts_with("chukkanalli: the output cannot be written: "), "{}", run.err);
}
