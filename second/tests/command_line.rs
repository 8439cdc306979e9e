//! The command line as a user meets it.

use second::generate::build::*;
use second::generate::examples::*;
use std::path::PathBuf;
use std::process::{Command, Output};

/// A folder of its own for each test, removed at the end.
struct Folder(PathBuf);

impl Folder {
    fn new(name: &str) -> Folder {
        let path = std::env::temp_dir().join(format!("second-{}-{name}", std::process::id()));
        std::fs::create_dir_all(&path).unwrap();
        Folder(path)
    }

    fn put(&self, name: &str, bytes: &[u8]) {
        std::fs::write(self.0.join(name), bytes).unwrap();
    }

    fn get(&self, name: &str) -> Vec<u8> {
        std::fs::read(self.0.join(name)).unwrap()
    }

    fn second(&self, arguments: &[&str]) -> Output {
        Command::new(env!("CARGO_BIN_EXE_second")).args(arguments).current_dir(&self.0).output().unwrap()
    }

    /// Standard output and exit status.
    fn says(&self, arguments: &[&str]) -> (String, i32) {
        let output = self.second(arguments);
        (String::from_utf8(output.stdout).unwrap(), output.status.code().unwrap())
    }

    fn complaint(&self, arguments: &[&str]) -> (String, i32) {
        let output = self.second(arguments);
        (String::from_utf8(output.stderr).unwrap(), output.status.code().unwrap())
    }
}

impl Drop for Folder {
    fn drop(&mut self) {
        let _ = std::fs::remove_dir_all(&self.0);
    }
}

#[test]
fn from_a_run_to_the_proof_written_back() {
    let folder = Folder::new("whole");
    folder.put("table.kit", &table_a());
    folder.put("job", &job(&[10], &defined(3)));
    let line = |text: &str| (text.to_string(), 0);
    assert_eq!(folder.says(&["run", "table.kit", "job", "19", "proof.hip"]), line("written 51 bytes steps 19\n"));
    assert_eq!(folder.get("proof.hip"), first_proof());
    assert_eq!(folder.says(&["check", "table.kit", "proof.hip"]), line("accepted fields 11 uses 3 open 0 rules 3\n"));
    assert_eq!(folder.says(&["flatten", "table.kit", "proof.hip", "flat"]), line("written 26 bytes\n"));
    assert_eq!(folder.says(&["check-flat", "table.kit", "flat"]), line("right uses 3 open 0 rules 3\n"));
    assert_eq!(folder.says(&["write", "table.kit", "flat", "back"]), line("written 29 bytes\n"));
    assert_eq!(folder.get("back"), first_written_back());
}

#[test]
fn refusals_leave_the_output_file_alone() {
    let folder = Folder::new("refusals");
    folder.put("table.kit", &table_a());
    folder.put("job", &job(&[10], &defined(3)));
    folder.put("wrong.hip", &proof(&[10], &atomic(2), &[]));
    let refused = |text: &str| (text.to_string(), 1);
    assert_eq!(folder.says(&["check", "table.kit", "wrong.hip"]), refused("refused 20 file 2 place 5\n"));
    assert_eq!(folder.says(&["run", "table.kit", "job", "18", "out"]), refused("refused 24 file 0 place 0 steps 18\n"));
    assert!(!folder.0.join("out").exists());
    let large = folder.says(&["run", "table.kit", "job", "99999999999999999999", "out"]);
    assert_eq!(large, refused("refused 25 file 0 place 0\n"));
    let (words, _) = folder.complaint(&["check", "table.kit", "wrong.hip"]);
    let validates_not = "the proof does not validate: ";
    assert_eq!(words, format!("wrong.hip, byte 5: {validates_not}the table has no rule of this name for the goal\n"));
}

#[test]
fn a_search_finds_what_a_run_does_not() {
    let folder = Folder::new("search");
    let refused = |text: &str| (text.to_string(), 1);
    folder.put("table", &table_a_with_all());
    folder.put("job", &job(&[20, 20, 30], &tensor(&defined(5), &defined(6))));
    let search = |height: &str, budget: &str| folder.says(&["search", "table", "job", height, budget, "out"]);
    assert_eq!(folder.says(&["run", "table", "job", "4096", "out"]).0, "refused 23 file 0 place 0 steps 1\n");
    assert_eq!(search("9", "4096"), refused("refused 41 file 0 place 0 steps 64\n"));
    assert_eq!(search("10", "55"), refused("refused 24 file 0 place 0 steps 55\n"));
    assert_eq!(search("65", "4096"), refused("refused 42 file 0 place 0\n"));
    assert_eq!(search("0", "4096"), refused("refused 42 file 0 place 0\n"));
    assert_eq!(search("99999999999", "4097"), refused("refused 25 file 0 place 0\n"));
    assert!(!folder.0.join("out").exists());
    assert_eq!(search("10", "56"), ("written 45 bytes steps 56\n".to_string(), 0));
    assert_eq!(folder.says(&["check", "table", "out"]).0, "accepted fields 9 uses 3 open 0 rules 2\n");
    assert_eq!(folder.complaint(&["search", "table", "job", "high", "56", "out"]).1, 2);
    let words = |height: &str| folder.complaint(&["search", "table", "job", height, "4096", "out"]).0;
    assert_eq!(words("9"), "no evaluation at most that high exists with lists of at most 256 goals\n");
    assert_eq!(words("65"), "the height is outside 1 to 64\n");
}

/// P1: a run in pieces gives the file of a single run; what is not a halt leaves the
/// state's file as it was.
#[test]
fn a_run_is_halted_and_taken_up() {
    let folder = Folder::new("halting");
    let line = |text: &str| (text.to_string(), 0);
    let refused = |text: &str| (text.to_string(), 1);
    folder.put("table.kit", &table_a());
    folder.put("job", &job(&[10], &defined(3)));
    let resume =
        |saved: &str, budget: &str| folder.says(&["resume", "table.kit", "job", saved, budget, "proof.hip", "state"]);
    let halted = folder.says(&["run-halting", "table.kit", "job", "7", "proof.hip", "state"]);
    assert_eq!(halted, refused("refused 24 file 0 place 0 steps 7\n"));
    assert_eq!(folder.get("state").len(), 160_268);
    assert_eq!(resume("state", "9"), refused("refused 24 file 0 place 0 steps 16\n"));
    assert_eq!(folder.get("state")[..2], [0, 16]);
    assert!(!folder.0.join("proof.hip").exists());
    assert_eq!(resume("state", "16369"), refused("refused 25 file 0 place 0\n"));
    assert_eq!(resume("table.kit", "0"), refused("refused 30 file 0 place 0\n"));
    assert_eq!(folder.get("state")[..2], [0, 16]);
    assert_eq!(resume("state", "3"), line("written 51 bytes steps 19\n"));
    assert_eq!(folder.get("proof.hip"), first_proof());
    assert_eq!(resume("missing", "3"), (String::new(), 3));
    let (words, _) = folder.complaint(&["resume", "table.kit", "job", "job", "3", "out", "state"]);
    assert_eq!(words, "the table and the job, run for its step count, do not halt with this saved state\n");
    let whole = folder.says(&["run-halting", "table.kit", "job", "19", "proof.hip", "none"]);
    assert_eq!(whole, line("written 51 bytes steps 19\n"));
    assert!(!folder.0.join("none").exists());
}

#[test]
fn show_prints_each_kind() {
    let folder = Folder::new("show");
    folder.put("table", &table_a());
    folder.put("job", &job(&[10, 20], &alternation(&assert_goal(30), &label(4, &label(5, &empty())))));
    folder.put("proof", &first_proof());
    folder.put("flat", &flat(&[10], &[use_entry(1, 10), open_entry(20), open_entry(30)]));
    folder.put("nothing", &[]);
    let table = "table: rules 3, definitions 4\nrule 1 on 10 gives 20, 30\nrule 2 on 20 gives none\n\
        rule 3 on 30 gives none\nT1 is [1]a1 ; a2 * id\nT2 is [2]a3\n\
        T3 is (?30 ; T2) | (T1 ; T3)\nT4 is id * T4 | <>\n";
    assert_eq!(folder.says(&["show", "table"]).0, table);
    assert_eq!(folder.says(&["show", "job"]).0, "job: term fields 5\ngoals 10, 20\nterm ?30 | [4][5]<>\n");
    let proof = "proof: term fields 11\ngoals 10\nterm ([1]a1 ; a2 * id) ; id ; [2]a3\nremaining none\n";
    assert_eq!(folder.says(&["show", "proof"]).0, proof);
    assert_eq!(folder.says(&["show", "--kind", "proof", "proof"]).0, proof);
    assert_eq!(folder.says(&["show", "flat"]).0, "flat: uses 1, open 2\nroots 10\nuse 1 on 10\nopen 20\nopen 30\n");
    assert_eq!(folder.says(&["show", "nothing"]).0, "table: rules 0, definitions 0\n");
    folder.put("term", &tensor(&sequence(&atomic(1), &id()), &empty()));
    let term = "term: term fields 5\nterm (a1 ; id) * <>\n";
    assert_eq!(folder.says(&["show", "term"]).0, term);
    assert_eq!(folder.says(&["show", "--kind", "term", "term"]).0, term);
}

/// P7. A file that cannot be opened has the exit status of all files: the line of
/// the check program for it, `refused 2 file 2 place 0`, is not printed.
#[test]
fn a_proof_of_no_bytes_and_one_that_is_missing() {
    let folder = Folder::new("no-bytes");
    let line = |text: &str| (text.to_string(), 0);
    let refused = |text: &str| (text.to_string(), 1);
    folder.put("nothing", &[]);
    folder.put("table.kit", &table_a());
    folder.put("torn.kit", &[1, 0]);
    for table in ["table.kit", "nothing"] {
        assert_eq!(folder.says(&["check", table, "nothing"]), line("accepted fields 1 uses 0 open 0 rules 0\n"));
        assert_eq!(folder.says(&["flatten", table, "nothing", "flat"]), line("written 3 bytes\n"));
        assert_eq!(folder.get("flat"), [3, 0, 0]);
        assert_eq!(folder.says(&["write", table, "flat", "back"]), line("written 9 bytes\n"));
        assert_eq!(folder.get("back"), proof(&[], &empty(), &[]));
        assert_eq!(folder.says(&["check-flat", table, "nothing"]), refused("refused 2 file 2 place 0\n"));
        assert_eq!(folder.says(&["run", table, "nothing", "1", "out"]), refused("refused 2 file 2 place 0\n"));
        assert_eq!(folder.says(&["check", table, "missing"]), (String::new(), 3));
    }
    assert_eq!(folder.says(&["check", "torn.kit", "nothing"]), refused("refused 2 file 1 place 0\n"));
    assert_eq!(folder.says(&["check", "torn.kit", "missing"]), (String::new(), 3));
    assert_eq!(folder.says(&["check", "missing", "nothing"]), (String::new(), 3));
    let shown = "proof: term fields 1\ngoals none\nterm <>\nremaining none\n";
    assert_eq!(folder.says(&["show", "--kind", "proof", "nothing"]), line(shown));
    assert_eq!(folder.says(&["show", "back"]), line(shown));
    let (words, status) = folder.complaint(&["show", "--kind", "job", "nothing"]);
    assert_eq!(status, 1);
    assert!(words.contains("refusal 2 at byte 0"), "{words}");
}

#[test]
fn files_that_do_not_read_are_explained() {
    let folder = Folder::new("explained");
    folder.put("torn", &first_proof()[..47]);
    folder.put("table", &rule(1, 1, &[0; 9]));
    let (words, status) = folder.complaint(&["show", "torn"]);
    assert_eq!(status, 1);
    assert!(words.contains("does not read as a job file"), "{words}");
    let (words, status) = folder.complaint(&["show", "--kind", "proof", "torn"]);
    assert_eq!(status, 1);
    assert!(words.contains("refusal 2 at byte 5: a field is missing or torn"), "{words}");
    let (words, _) = folder.complaint(&["show", "table"]);
    assert!(words.contains("refusal 4 at byte 0: the length is wrong"), "{words}");
    folder.put("term", &[19, 0, 3, 17, 0, 0]);
    let (words, _) = folder.complaint(&["show", "term"]);
    assert!(words.contains("does not read as a term file"), "{words}");
    assert!(words.contains("refusal 2 at byte 6: a field is missing or torn"), "{words}");
}

#[test]
fn terms_are_read_from_text_and_written_as_text() {
    let folder = Folder::new("texts");
    let line = |text: &str| (text.to_string(), 0);
    let term = sequence(&label(1, &atomic(1)), &tensor(&atomic(2), &id()));
    folder.put("loose", b" ([01] a1);(a2*id) ");
    assert_eq!(folder.says(&["read-text", "loose", "term"]), line("written 24 bytes\n"));
    assert_eq!(folder.get("term"), term);
    assert_eq!(folder.says(&["write-text", "term"]), line("([1]a1) ; a2 * id\n"));
    assert_eq!(folder.says(&["write-text", "term", "text"]), line("written 17 bytes\n"));
    assert_eq!(folder.get("text"), b"([1]a1) ; a2 * id");
    folder.put("torn", &term[..9]);
    assert_eq!(folder.says(&["write-text", "torn"]), ("refused 2 file 2 place 0\n".to_string(), 1));
}

/// From a table of rules alone to document 01's first proof.
#[test]
fn a_table_and_a_job_are_written_by_hand() {
    let folder = Folder::new("by-hand");
    folder.put("rules", &[rule(1, 10, &[20, 30]), rule(2, 20, &[]), rule(3, 30, &[])].concat());
    let tactics = ["[1]a1 ; a2 * id", "[2]a3", "(?30 ; T2) | (T1 ; T3)", "id * T4 | <>"];
    for (tactic, term) in ["1", "2", "3", "4"].into_iter().zip(tactics) {
        assert_eq!(folder.says(&["define", "rules", tactic, term, "rules"]).1, 0);
    }
    assert_eq!(folder.get("rules"), table_a());
    assert_eq!(folder.says(&["job", "10", "T3", "job"]), ("written 10 bytes\n".to_string(), 0));
    assert_eq!(folder.get("job"), job(&[10], &defined(3)));
    assert_eq!(folder.says(&["run", "rules", "job", "19", "proof"]).0, "written 51 bytes steps 19\n");
    assert_eq!(folder.get("proof"), first_proof());
    assert_eq!(folder.says(&["job", "none", "T4", "job"]).1, 0);
    assert_eq!(folder.get("job"), job(&[], &defined(4)));
    assert_eq!(folder.says(&["job", "10, 65535", "id*id", "job"]).1, 0);
    assert_eq!(folder.get("job"), job(&[10, 65_535], &tensor(&id(), &id())));
}

#[test]
fn refused_texts_are_shown_with_the_byte() {
    let folder = Folder::new("refused-texts");
    let refused = |text: &str| (text.to_string(), 1);
    folder.put("line", b"a1 ; id\n");
    assert_eq!(folder.says(&["read-text", "line", "out"]), refused("refused 36 file 2 place 7\n"));
    let meaning = "no text of the notation goes on with this byte, or the text ends early";
    let (words, _) = folder.complaint(&["read-text", "line", "out"]);
    assert_eq!(words, format!("line, byte 7: {meaning}\na1 ; id.\n       ^\n"));
    assert_eq!(folder.says(&["job", "10", "a1 ; a2x", "out"]), refused("refused 36 file 2 place 7\n"));
    let (words, _) = folder.complaint(&["job", "10", "a1 ⊗ a2", "out"]);
    assert_eq!(words, format!("the term, byte 3: {meaning}\na1 ... a2\n   ^\n"));
    let (words, _) = folder.complaint(&["job", "10", "a1 ; a65536", "out"]);
    assert_eq!(words, "the term, byte 6: a value is over 65,535\na1 ; a65536\n      ^\n");
    let long = format!("{}x", "id ; ".repeat(30));
    let (words, _) = folder.complaint(&["job", "10", &long, "out"]);
    assert!(words.ends_with(&format!("\n{}x\n{}^\n", "id ; ".repeat(10), " ".repeat(50))), "{words}");
    assert!(!folder.0.join("out").exists());
}

#[test]
fn refused_jobs_and_definitions_are_not_written() {
    let folder = Folder::new("refused-jobs");
    let refused = |text: &str| (text.to_string(), 1);
    folder.put("table", &table_a());
    let length = table_a().len();
    let twice = folder.says(&["define", "table", "3", "id", "table"]);
    assert_eq!(twice, refused(&format!("refused 8 file 1 place {length}\n")));
    let label = folder.says(&["define", "table", "5", "id * [2]id", "table"]);
    assert_eq!(label, refused(&format!("refused 9 file 1 place {}\n", length + 5 + 3 + 3)));
    assert_eq!(folder.says(&["define", "table", "5", "id *", "table"]), refused("refused 36 file 2 place 4\n"));
    assert_eq!(folder.get("table"), table_a());
    folder.put("torn", &table_a()[1..]);
    assert_eq!(folder.says(&["define", "torn", "5", "x", "table"]), refused("refused 3 file 1 place 0\n"));
    let many = vec!["10"; 257].join(",");
    assert_eq!(folder.says(&["job", &many, "id", "job"]), refused("refused 5 file 2 place 0\n"));
    assert_eq!(folder.complaint(&["job", "10;20", "id", "job"]).1, 2);
    assert_eq!(folder.complaint(&["job", "65536", "id", "job"]).1, 2);
    assert_eq!(folder.complaint(&["define", "table", "T5", "id", "job"]).1, 2);
}

#[test]
fn trouble_has_a_message_and_a_status() {
    let folder = Folder::new("trouble");
    folder.put("table", &[]);
    let (words, status) = folder.complaint(&["check", "table", "missing"]);
    assert_eq!(status, 3);
    assert!(words.starts_with("second: cannot read missing: "), "{words}");
    assert_eq!(folder.complaint(&["run", "table", "table", "many", "out"]).1, 2);
    assert_eq!(folder.complaint(&["show", "--kind", "poem", "table"]).1, 2);
    assert_eq!(folder.complaint(&["frobnicate"]).1, 2);
    assert_eq!(folder.complaint(&[]).1, 2);
    let (help, status) = folder.says(&["--help"]);
    assert_eq!(status, 0);
    assert!(help.contains("second check TABLE PROOF"));
}

#[test]
fn random_cases_are_replayed() {
    let folder = Folder::new("replay");
    assert_eq!(folder.says(&["generate-random", "7", "50", "cases.vec"]), ("cases.vec: 50 cases\n".to_string(), 0));
    assert_eq!(folder.says(&["replay", "cases.vec"]), ("cases.vec: 50 cases agree\n".to_string(), 0));
}
