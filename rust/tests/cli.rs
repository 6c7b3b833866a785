//! The program: each command, each exit status, and input that makes no sense.

use std::ffi::{OsStr, OsString};
use std::fs;
use std::io::Write;
use std::os::unix::ffi::OsStrExt;
use std::path::{Path, PathBuf};
use std::process::{Command, Output, Stdio};
use std::sync::atomic::{AtomicU32, Ordering};

use giophantus::Error;

const SET: &str = "4 65521 2 1 1 4";
const SET_A: &str = "4 1459 2 1 1 4";
const SET_A_EDITION_2: &str = "4 1459 2 1 1 4 2";

/// A directory of its own for a test.
struct Place(PathBuf);

impl Place {
    fn new() -> Self {
        static NEXT: AtomicU32 = AtomicU32::new(0);
        let name = format!("cli-{}-{}", std::process::id(), NEXT.fetch_add(1, Ordering::Relaxed));
        let path = Path::new(env!("CARGO_TARGET_TMPDIR")).join(name);
        fs::create_dir_all(&path).unwrap();
        Place(path)
    }

    fn write(&self, name: &str, octets: &[u8]) {
        fs::write(self.0.join(name), octets).unwrap();
    }

    fn read(&self, name: &str) -> Vec<u8> {
        fs::read(self.0.join(name)).unwrap()
    }

    fn has(&self, name: &str) -> bool {
        self.0.join(name).exists()
    }

    fn run<A: AsRef<OsStr>>(&self, arguments: &[A]) -> Output {
        self.run_with(arguments, b"")
    }

    fn run_with<A: AsRef<OsStr>>(&self, arguments: &[A], input: &[u8]) -> Output {
        let mut child = Command::new(env!("CARGO_BIN_EXE_giophantus"))
            .args(arguments)
            .current_dir(&self.0)
            .stdin(Stdio::piped())
            .stdout(Stdio::piped())
            .stderr(Stdio::piped())
            .spawn()
            .unwrap();
        // The program may stop before it has read all.
        let _ = child.stdin.take().unwrap().write_all(input);
        child.wait_with_output().unwrap()
    }

    /// Runs it and expects success; gives what it printed.
    fn good<A: AsRef<OsStr>>(&self, arguments: &[A]) -> String {
        let output = self.run(arguments);
        assert_eq!(status(&output), 0, "{}", String::from_utf8_lossy(&output.stderr));
        String::from_utf8_lossy(&output.stdout).into_owned()
    }

    /// Runs it and expects this status and one line that says `what`.
    #[track_caller]
    fn bad<A: AsRef<OsStr>>(&self, arguments: &[A], expected: i32, what: &str) {
        judge(&self.run(arguments), expected, what);
    }

    /// Worked case 2's keys and case 3's ciphertext.
    fn worked() -> Self {
        let place = Place::new();
        place.write("secret", &[0x09, 0x04]);
        place.write("public", &[5, 0, 7, 0, 0x64, 0, 1, 0, 0x9F, 5, 0x3E, 5]);
        place.write("random", &[1, 0, 0, 0, 0, 0, 0, 0, 0, 0, 1, 0, 1, 0, 8, 0x0F, 0, 9]);
        place.write("sent", &SENT);
        place
    }

    /// Worked case 1's two elements, 1 + 2t and 5 + 7t, and 3 + 1458t to add.
    fn elements() -> Self {
        let place = Place::new();
        place.write("a", &[1, 0, 2, 0]);
        place.write("b", &[5, 0, 7, 0]);
        place.write("c", &[3, 0, 0xB2, 5]);
        place
    }
}

impl Drop for Place {
    fn drop(&mut self) {
        let _ = fs::remove_dir_all(&self.0);
    }
}

const SENT: [u8; 24] = [
    0x09, 0x00, 0x07, 0x00, 0x64, 0x00, 0x01, 0x00, 0x00, 0x00, 0x08, 0x00, 0xB2, 0x05, 0x4F, 0x05, 0x01, 0x00, 0x64,
    0x00, 0x44, 0x05, 0xAA, 0x05,
];

fn status(output: &Output) -> i32 {
    output.status.code().expect("it was not stopped by a signal")
}

fn said(output: &Output) -> String {
    String::from_utf8_lossy(&output.stderr).into_owned()
}

#[track_caller]
fn judge(output: &Output, expected: i32, what: &str) {
    let line = String::from_utf8_lossy(&output.stderr);
    assert_eq!(status(output), expected, "{line}");
    assert!(line.contains(what), "{line}");
    assert_eq!(line.matches('\n').count(), 1, "{line}");
    assert!(line.starts_with("giophantus: ") && !line.contains("panicked"), "{line}");
    assert!(output.stdout.is_empty());
}

#[test]
fn a_whole_trial_with_octets_of_the_system() {
    let place = Place::new();
    place.good(&["keygen", "--set", SET, "--secret-key", "secret", "--public-key", "public"]);
    assert_eq!(place.good(&["is-zero", "--set", SET, "--secret-key", "secret", "--public-key", "public"]), "yes\n");
    for (file, counts) in [("one", "1 0"), ("two", "2,1"), ("three", "0 1")] {
        place.good(&["encrypt", "--set", SET, "--public-key=public", "--counts", counts, "--out", file]);
    }
    place.good(&["add", "--set", SET, "one", "two", "three", "--out", "sum"]);
    assert_eq!(place.good(&["decrypt", "--set", SET, "--secret-key", "secret", "--counts", "sum"]), "3 2\n");
    // Through standard input and output.
    let sum = place.run_with(&["add", "--set", SET, "-", "two"], &place.read("one"));
    let total = place.run_with(&["decrypt", "--set", SET, "--secret-key", "secret", "--counts"], &sum.stdout);
    assert_eq!(total.stdout, b"3 1\n");
    // Packed: 3 + 2t.
    assert_eq!(place.good(&["decrypt", "--set", SET, "--secret-key", "secret", "sum"]), "\x0B");
}

#[test]
fn worked_cases() {
    let place = Place::worked();
    place.write("octets", &[9, 4, 5, 0, 7, 0, 0x64, 0, 1, 0, 0xFF]);
    let keys = ["keygen", "--set", SET_A, "--random", "octets", "--secret-key", "s", "--public-key", "p"];
    let output = place.run(&keys);
    assert_eq!(status(&output), 0);
    let line = "giophantus: 10 random octets used, 0 groups of 2 octets and 0 elements of 1 octet dropped\n";
    assert_eq!(said(&output), line);
    assert_eq!(place.read("s"), place.read("secret"));
    assert_eq!(place.read("p"), place.read("public"));

    let encrypt =
        ["encrypt", "--set", SET_A, "--public-key", "public", "--counts", "2 3", "--random", "random", "--out", "c"];
    let output = place.run(&encrypt);
    assert_eq!(said(&output), "giophantus: 18 random octets used, 0 groups of 2 octets dropped\n");
    assert_eq!(place.read("c"), SENT);

    place.write("message", &[0x0E]);
    let encrypt = ["encrypt", "--set", SET_A, "--public-key", "public", "--message", "message", "--random", "-"];
    assert_eq!(place.run_with(&encrypt, &place.read("random")).stdout, SENT);
    let counts = place.good(&["decrypt", "--set", SET_A, "--secret-key", "secret", "sent", "--counts"]);
    assert_eq!(counts, "2 3\n");
}

/// As docs/GUIDE.md shows it.
#[test]
fn a_group_that_encrypt_drops_is_said() {
    let place = Place::worked();
    let random = [&[0xB3, 0x05], &place.read("random")[..]].concat();
    place.write("octets", &random);
    let encrypt = ["encrypt", "--set", SET_A, "--public-key", "public", "--counts", "2 3", "--random"];
    let output = place.run(&[&encrypt[..], &["octets"]].concat());
    assert_eq!(output.stdout, SENT);
    assert_eq!(said(&output), "giophantus: 20 random octets used, 1 group of 2 octets dropped\n");
    let output = place.run_with(&[&encrypt[..], &["-"]].concat(), &random);
    assert_eq!(said(&output), "giophantus: 20 random octets used, 1 group of 2 octets dropped\n");
}

#[test]
fn what_keygen_drops_is_said() {
    let place = Place::worked();
    let keygen = ["keygen", "--secret-key", "s", "--public-key", "p", "--force", "--random", "octets", "--set"];
    for (octets, line) in [
        (
            &[9, 4, 5, 0, 0xB3, 5, 7, 0, 0x64, 0, 0xFF, 0xFF, 1, 0][..],
            "giophantus: 14 random octets used, 2 groups of 2 octets and 0 elements of 1 octet dropped\n",
        ),
        // As docs/GUIDE.md shows it: 0x03 is 3 + 0t.
        (
            &[3, 9, 4, 5, 0, 7, 0, 0xB3, 5, 0x64, 0, 1, 0, 99],
            "giophantus: 13 random octets used, 1 group of 2 octets and 1 element of 1 octet dropped\n",
        ),
        (
            &[0, 0x31, 9, 0xF0, 2, 4, 5, 0, 7, 0, 0x64, 0, 1, 0],
            "giophantus: 14 random octets used, 0 groups of 2 octets and 4 elements of 1 octet dropped\n",
        ),
    ] {
        place.write("octets", octets);
        assert_eq!(said(&place.run(&[&keygen[..], &[SET_A]].concat())), line);
        assert_eq!((place.read("s"), place.read("p")), (place.read("secret"), place.read("public")));
    }
    // A group is one octet; 73 is dropped, and behind the last draw nothing is.
    place.write("octets", &[2, 3, 73, 72, 0, 0, 0, 73]);
    let output = place.run(&[&keygen[..], &["2 73 2 1 1 2"]].concat());
    let line = "giophantus: 7 random octets used, 1 group of 1 octet and 0 elements of 1 octet dropped\n";
    assert_eq!(said(&output), line);
    // An element is two octets; its top coefficient is the upper two bits of the first and the lowest of the second.
    place.write("octets", &[&[0x3F, 0xFE, 0x40, 0, 0x3F, 0, 0, 1][..], &[1; 18]].concat());
    let output = place.run(&[&keygen[..], &["8 8388593 3 1 1 9"]].concat());
    let line = "giophantus: 26 random octets used, 0 groups of 3 octets and 2 elements of 2 octets dropped\n";
    assert_eq!(said(&output), line);
}

/// Worked case 2 in edition 2: the same keys, with n further draws behind the others, of which one is dropped here.
#[test]
fn keygen_in_edition_2() {
    let place = Place::worked();
    let octets = [9, 4, 5, 0, 7, 0, 0x64, 0, 1, 0, 0xB3, 5, 1, 0, 2, 0];
    let keygen = ["keygen", "--secret-key", "s", "--public-key", "p", "--random", "octets", "--set", SET_A_EDITION_2];
    for few in [10, 11, 12, 14, 15] {
        place.write("octets", &octets[..few]);
        place.bad(&keygen, 9, "octets: refusal 9");
        assert!(!place.has("s") && !place.has("p"));
    }
    place.write("octets", &octets);
    let line = "giophantus: 16 random octets used, 1 group of 2 octets and 0 elements of 1 octet dropped\n";
    assert_eq!(said(&place.run(&keygen)), line);
    assert_eq!((place.read("s"), place.read("p")), (place.read("secret"), place.read("public")));

    // From standard input, and with the edition that six numbers have.
    let keygen = ["keygen", "--secret-key", "s", "--public-key", "p", "--force", "--random", "-", "--set"];
    assert_eq!(said(&place.run_with(&[&keygen[..], &[SET_A_EDITION_2]].concat(), &octets)), line);
    let line = "giophantus: 10 random octets used, 0 groups of 2 octets and 0 elements of 1 octet dropped\n";
    for set in [SET_A, "4 1459 2 1 1 4 1"] {
        assert_eq!(said(&place.run_with(&[&keygen[..], &[set]].concat(), &octets)), line);
        assert_eq!((place.read("s"), place.read("p")), (place.read("secret"), place.read("public")));
    }
}

/// The other commands do the same in both editions.
#[test]
fn files_of_one_edition_serve_the_other() {
    let place = Place::worked();
    place.write("element", &[1, 0, 2, 0]);
    let convert = |kind| vec!["convert", "--kind", kind, "--to", "words"];
    for arguments in [
        vec!["encrypt", "--public-key", "public", "--counts", "2 3", "--random", "random"],
        vec!["decrypt", "--secret-key", "secret", "--counts", "sent"],
        vec!["is-zero", "--secret-key", "secret", "--public-key", "public"],
        vec!["add", "sent", "sent"],
        vec!["multiply-add", "element", "element", "element"],
        [convert("ciphertext"), vec!["sent"]].concat(),
        [convert("secret-key"), vec!["secret"]].concat(),
    ] {
        let answer = |set| {
            let output = place.run(&[&arguments[..], &["--set", set]].concat());
            assert_eq!(status(&output), 0, "{}", said(&output));
            (output.stdout.clone(), said(&output))
        };
        assert_eq!(answer(SET_A), answer(SET_A_EDITION_2), "{arguments:?}");
    }
}

/// Neither where the octets come from the system, nor with a refusal.
#[test]
fn nothing_is_said_to_be_used() {
    let place = Place::worked();
    let encrypt = ["encrypt", "--set", SET_A, "--public-key", "public", "--counts", "2 3", "--out", "c"];
    let keygen = ["keygen", "--set", SET_A, "--secret-key", "s", "--public-key", "p"];
    // As many as are used where nothing is dropped.
    place.write("groups", &[9, 4, 5, 0, 0xB3, 5, 7, 0, 0x64, 0]);
    place.write("elements", &[9, 0, 4, 5, 0, 7, 0, 0x64, 0, 1]);
    place.write("for-c", &[&[0xB3, 0x05], &place.read("random")[..16]].concat());
    for (command, random) in [(&keygen[..], "groups"), (&keygen, "elements"), (&encrypt, "for-c")] {
        let output = place.run(&[command, &["--random", random]].concat());
        judge(&output, 9, "refusal 9");
        assert!(!said(&output).contains("used") && !said(&output).contains("dropped"), "{}", said(&output));
    }
    assert!(!place.has("s") && !place.has("p") && !place.has("c"));
    for command in [&keygen[..], &encrypt] {
        let output = place.run(command);
        assert_eq!((status(&output), said(&output)), (0, String::new()));
    }
}

#[test]
fn a_blank_goes_out_under_mlen_0() {
    let place = Place::worked();
    let blank = "4 1459 2 1 1 0";
    place.good(&["encrypt", "--set", blank, "--public-key", "public", "--blank", "--out", "c"]);
    assert_eq!(place.good(&["decrypt", "--set", blank, "--secret-key", "secret", "--counts", "c"]), "blank\n");
    assert_eq!(place.good(&["decrypt", "--set", blank, "--secret-key", "secret", "c"]), "");
    let wrong = ["encrypt", "--set", SET_A, "--public-key", "public", "--blank", "--out", "wrong"];
    place.bad(&wrong, 6, "--blank goes out under the set \"4 1459 2 1 1 0\"");
    let wrong = ["encrypt", "--set", SET_A_EDITION_2, "--public-key", "public", "--blank", "--out", "wrong"];
    place.bad(&wrong, 6, "--blank goes out under the set \"4 1459 2 1 1 0 2\"");
    assert!(!place.has("wrong"));
}

/// Sets that are refused, each with its number.
const REFUSED_SETS: [(&str, i32); 17] = [
    ("3 1459 2 1 1 4", 1),
    ("4 1459 1 1 1 4", 2),
    ("4 1459 2 3 1 4", 3),
    ("4 1455 2 1 1 4", 4),
    ("4 1459 2 1 1 3", 5),
    ("4 1459 2 1 1", 11),
    ("4 1459 2 1 1 04", 11),
    ("", 11),
    ("4 1459 2 1 1 4 0", 18),
    ("4 1459 2 1 1 4 3", 18),
    ("4 1459 2 1 1 4 4294967295", 18),
    ("4 1455 2 1 1 4 3", 4),
    ("4 1459 2 1 1 3 3", 5),
    ("4 1459 2 1 1 4 01", 11),
    ("4 1459 2 1 1 4 4294967296", 11),
    ("4 1459 2 1 1 4 ", 11),
    ("4 1459 2 1 1 4 2 2", 11),
];

#[test]
fn the_exit_status_is_the_refusal() {
    let place = Place::worked();
    for (set, number) in REFUSED_SETS {
        place.bad(&["limits", "--set", set], number, &format!("refusal {number}: "));
    }
    place.write("short", &SENT[1..]);
    place.bad(&["add", "--set", SET_A, "sent", "short"], 6, "short (24 octets expected, 23 found): refusal 6");
    place.write("long", &[&SENT[..], &[0; 99]].concat());
    place.bad(&["add", "--set", SET_A, "long", "sent"], 6, "long (24 octets expected, more found): refusal 6");
    place.write("padded", &[0x09, 0x14]);
    place.bad(&["decrypt", "--set", SET_A, "--secret-key", "padded", "sent"], 7, "padded: refusal 7");
    place.write("large", &[0xFF; 24]);
    place.bad(&["decrypt", "--set", SET_A, "--secret-key", "secret", "large"], 8, "large: refusal 8");
    let four = ["encrypt", "--set", SET_A, "--public-key", "public", "--counts", "4 0"];
    place.bad(&four, 8, "--counts: refusal 8");
    let huge = ["encrypt", "--set", SET_A, "--public-key", "public", "--counts", "99999999999999999999 0"];
    place.bad(&huge, 8, "--counts: refusal 8");
    let few = ["encrypt", "--set", SET_A, "--public-key", "public", "--counts", "1"];
    place.bad(&few, 6, "--counts (2 expected, 1 found): refusal 6");
    place.write("few", &[0; 17]);
    let few = ["encrypt", "--set", SET_A, "--public-key", "public", "--counts", "1 1", "--random", "few"];
    place.bad(&few, 9, "few: refusal 9");
    place.bad(&["decrypt", "--set", "4 1459 2 1 1 2", "--secret-key", "secret", "sent"], 10, "sent: refusal 10");
}

/// u_x or u_y is 3 + 0t: decrypt and is-zero refuse it and name the secret key's file; convert doesn't judge it.
#[test]
fn a_secret_key_that_ends_in_zero() {
    let place = Place::worked();
    for (octets, words) in [([0x03, 0x04], "3 0\n0 1\n"), ([0x09, 0x03], "1 2\n3 0\n"), ([0, 0], "0 0\n0 0\n")] {
        place.write("ends-in-zero", &octets);
        for set in [SET_A, "4 1459 2 1 1 2", "4 1459 2 1 1 0"] {
            let key = ["--set", set, "--secret-key", "ends-in-zero"];
            place.bad(&[&["decrypt"], &key[..], &["sent"]].concat(), 14, "ends-in-zero: refusal 14: ");
            place.bad(
                &[&["is-zero"], &key[..], &["--public-key", "public"]].concat(),
                14,
                "ends-in-zero: refusal 14: ",
            );
        }
        let convert = ["convert", "--set", SET_A, "--kind", "secret-key", "--to", "words", "ends-in-zero"];
        assert_eq!(place.good(&convert), words);
    }
}

#[test]
fn of_several_refusals_the_first_in_their_order_is_given() {
    let place = Place::worked();
    place.write("ends-in-zero", &[0x09, 0x03]);
    place.write("padded", &[0x03, 0x14]);
    place.write("large", &[0xFF; 24]);
    place.write("short", &[0xFF; 23]);
    place.bad(&["decrypt", "--set", SET_A, "--secret-key", "padded", "short"], 6, "short (24");
    place.bad(&["decrypt", "--set", SET_A, "--secret-key", "padded", "large"], 7, "padded: ");
    place.bad(&["decrypt", "--set", SET_A, "--secret-key", "padded", "sent"], 7, "padded: ");
    place.bad(&["decrypt", "--set", SET_A, "--secret-key", "ends-in-zero", "short"], 6, "short (24");
    place.bad(&["decrypt", "--set", SET_A, "--secret-key", "ends-in-zero", "large"], 8, "large: ");
    place.bad(&["add", "--set", SET_A, "large", "sent", "short"], 6, "short (24");
    place.write("wrong-key", &[0xFF; 12]);
    let is_zero = ["is-zero", "--set", SET_A, "--secret-key", "ends-in-zero", "--public-key", "wrong-key"];
    place.bad(&is_zero, 8, "wrong-key: ");
    let encrypt = ["encrypt", "--set", SET_A, "--public-key", "wrong-key", "--random", "short", "--counts", "1"];
    place.bad(&encrypt, 6, "--counts (2 expected");
}

#[test]
fn a_refusal_leaves_the_output_file_as_it_was() {
    let place = Place::worked();
    place.write("out", b"old");
    place.write("short", &SENT[1..]);
    place.bad(&["add", "--set", SET_A, "sent", "short", "--out", "out"], 6, "short");
    place.bad(&["decrypt", "--set", SET_A, "--secret-key", "secret", "short", "--out", "out"], 6, "short");
    assert_eq!(place.read("out"), b"old");
}

#[test]
fn key_files_are_not_replaced_unasked() {
    let place = Place::worked();
    let old = place.read("secret");
    let keys = ["keygen", "--set", SET_A, "--secret-key", "secret", "--public-key", "fresh"];
    place.bad(&keys, 73, "secret is there already");
    assert_eq!(place.read("secret"), old);
    assert!(!place.has("fresh"));
    place.good(&[&keys[..], &["--force"]].concat());
    assert!(place.has("fresh"));
    place.bad(&["keygen", "--set", SET_A, "--secret-key", "k", "--public-key", "k"], 64, "one file");
    #[cfg(unix)]
    {
        use std::os::unix::fs::PermissionsExt;
        place.good(&["keygen", "--set", SET_A, "--secret-key", "new", "--public-key", "newer"]);
        assert_eq!(fs::metadata(place.0.join("new")).unwrap().permissions().mode() & 0o777, 0o600);
    }
}

#[test]
fn conversions_go_both_ways() {
    let place = Place::worked();
    let words = place.good(&["convert", "--set", SET_A, "--kind", "public-key", "--to", "words", "public"]);
    assert_eq!(words, "5 7\n100 1\n1439 1342\n");
    place.write("words", words.as_bytes());
    place.good(&["convert", "--set", SET_A, "--kind", "public-key", "--to", "octets", "words", "--out", "back"]);
    assert_eq!(place.read("back"), place.read("public"));
    for (kind, octets, words) in [
        ("element", &[5, 0, 7, 0][..], "5 7\n"),
        ("small", &[0x09], "1 2\n"),
        ("secret-key", &[0x09, 0x04], "1 2\n0 1\n"),
        ("message", &[0x0E], "2 3\n"),
        ("ciphertext", &SENT, "9 7\n100 1\n0 8\n1458 1359\n1 100\n1348 1450\n"),
    ] {
        let to_words = ["convert", "--set", SET_A, "--kind", kind, "--to", "words"];
        assert_eq!(place.run_with(&to_words, octets).stdout, words.as_bytes(), "{kind}");
        let to_octets = ["convert", "--set", SET_A, "--kind", kind, "--to", "octets"];
        assert_eq!(place.run_with(&to_octets, words.as_bytes()).stdout, octets, "{kind}");
        judge(&place.run_with(&to_octets, b"1"), 6, "-: refusal 6");
        judge(&place.run_with(&to_octets, b"one"), 65, "`one` is no number");
        judge(&place.run_with(&to_octets, b"\xFF\xFE"), 65, "isn't text");
        judge(&place.run_with(&to_words, b""), 6, "-: refusal 6");
    }
    let element = ["convert", "--set", SET_A, "--kind", "element", "--to", "octets"];
    judge(&place.run_with(&element, b"1459 0"), 8, "-: refusal 8");
    let small = ["convert", "--set", SET_A, "--kind", "small", "--to", "words"];
    judge(&place.run_with(&small, &[0x19]), 7, "-: refusal 7");
    place.bad(&["convert", "--set", SET_A, "--kind", "key", "--to", "words"], 64, "--kind is");
    place.bad(&["convert", "--set", SET_A, "--kind", "small", "--to", "text"], 64, "--to is");
}

/// As docs/GUIDE.md shows it.
#[test]
fn a_product_by_hand() {
    let place = Place::new();
    for (file, words) in [("a", "1 2\n"), ("b", "5 7\n"), ("c", "0 0\n")] {
        let convert = ["convert", "--set", SET_A, "--kind", "element", "--to", "octets", "--out", file];
        assert_eq!(status(&place.run_with(&convert, words.as_bytes())), 0);
    }
    assert_eq!(place.good(&["multiply-add", "--set", SET_A, "a", "b", "c", "--out", "c"]), "");
    assert_eq!(place.good(&["convert", "--set", SET_A, "--kind", "element", "--to", "words", "c"]), "19 17\n");
}

#[test]
fn a_product_is_added() {
    let place = Place::elements();
    let multiply_add = ["multiply-add", "--set", SET_A];
    // 19 + 17t + 3 + 1458t
    let sum = [22, 0, 16, 0];
    for files in [["a", "b", "-"], ["b", "a", "-"]] {
        assert_eq!(place.run_with(&[&multiply_add[..], &files].concat(), &place.read("c")).stdout, sum);
    }
    assert_eq!(place.run_with(&[&multiply_add[..], &["-", "b", "c"]].concat(), &place.read("a")).stdout, sum);
    assert_eq!(place.run_with(&[&multiply_add[..], &["a", "-", "c"]].concat(), &place.read("b")).stdout, sum);
    // Into the file of C, and with one file as A and B: (1 + 2t)² = 5 + 4t.
    place.good(&[&multiply_add[..], &["a", "b", "c", "--out", "c"]].concat());
    assert_eq!(place.read("c"), sum);
    place.good(&[&multiply_add[..], &["--out=c", "a", "a", "c"]].concat());
    assert_eq!(place.read("c"), [27, 0, 20, 0]);
    assert_eq!((place.read("a"), place.read("b")), (vec![1, 0, 2, 0], vec![5, 0, 7, 0]));
}

#[test]
fn a_product_is_refused() {
    let place = Place::elements();
    place.write("out", b"old");
    place.write("short", &[1, 0, 2]);
    place.write("large", &[0xB3, 5, 0, 0]);
    for (set, number) in REFUSED_SETS {
        let what = format!("--set \"{set}\": refusal {number}: ");
        place.bad(&["multiply-add", "--set", set, "--out", "out", "a", "large", "short"], number, &what);
    }
    for (files, number, what) in [
        (["short", "b", "c"], 6, "short (4 octets expected, 3 found): refusal 6"),
        (["a", "short", "c"], 6, "short (4 octets expected, 3 found): refusal 6"),
        (["a", "b", "short"], 6, "short (4 octets expected, 3 found): refusal 6"),
        (["a", "b", "/dev/zero"], 6, "/dev/zero (4 octets expected, more found): refusal 6"),
        (["large", "b", "c"], 8, "large: refusal 8"),
        (["a", "large", "c"], 8, "large: refusal 8"),
        (["a", "b", "large"], 8, "large: refusal 8"),
        // The first in the order of refusals, and of equal ones the first file.
        (["large", "large", "short"], 6, "short (4"),
        (["large", "short", "large"], 6, "short (4"),
        (["a", "short", "/dev/zero"], 6, "short (4"),
    ] {
        place.bad(&[&["multiply-add", "--set", SET_A, "--out", "out"], &files[..]].concat(), number, what);
    }
    assert_eq!(place.read("out"), b"old");
}

#[test]
fn a_product_takes_three_files_that_can_be_read() {
    let place = Place::elements();
    let multiply_add = ["multiply-add", "--set", SET_A];
    for files in [&[][..], &["a"], &["a", "b"]] {
        place.bad(&[&multiply_add[..], files].concat(), 64, "name three ring elements");
    }
    place.bad(&[&multiply_add[..], &["a", "b", "c", "d"]].concat(), 64, "d is one argument too many");
    place.bad(&[&multiply_add[..], &["-", "-", "c"]].concat(), 64, "standard input (-) is given twice");
    place.bad(&["multiply-add", "a", "b", "c"], 64, "--set is missing");
    place.bad(&[&multiply_add[..], &["a", "b", "missing"]].concat(), 74, "missing: No such file");
    place.bad(&[&multiply_add[..], &["a", ".", "c"]].concat(), 74, ".: ");
    place.bad(&[&multiply_add[..], &["a", "b", "c", "--out", "no/where"]].concat(), 74, "no/where: ");
}

#[test]
fn limits_are_printed() {
    let place = Place::new();
    let text = place.good(&["limits", "--set", SET]);
    for line in [
        "bound                1455",
        "headroom             45",
        "ciphertext octets    24",
        "keygen uses          10 random octets, and 2 for each group and 1 for each element dropped",
        "encrypt uses         18 random octets, and 2 for each group dropped",
    ] {
        assert!(text.lines().any(|one| one == line), "{text}");
    }
    assert!(place.good(&["limits", "--set", "4 65521 2 1 1 0"]).contains("blank"));

    assert!(text.starts_with("set                  4 65521 2 1 1 4\nedition              1\n"), "{text}");
    assert_eq!(place.good(&["limits", "--set", "4 65521 2 1 1 4 1"]), text);
    let second = place.good(&["limits", "--set", "4 65521 2 1 1 4 2"]);
    let differ: Vec<(&str, &str)> = text.lines().zip(second.lines()).filter(|(one, other)| one != other).collect();
    let others: Vec<&str> = differ.iter().map(|(_, other)| *other).collect();
    let expected = [
        "set                  4 65521 2 1 1 4 2",
        "edition              2",
        "keygen uses          14 random octets, and 2 for each group and 1 for each element dropped",
    ];
    assert_eq!(others, expected);
}

#[test]
fn help_for_each_command() {
    let place = Place::new();
    let program = place.good(&["--help"]);
    for command in ["keygen", "encrypt", "add", "decrypt", "is-zero", "limits", "multiply-add", "convert"] {
        assert!(program.contains(&format!("\n  {command} ")));
        let help = place.good(&[command, "--help"]);
        assert!(help.starts_with(&format!("giophantus {command}: ")) && help.contains("usage: "), "{help}");
        assert_eq!(help, place.good(&[command, "-h"]));
    }
    // The refusals, in their order.
    let statuses = program.lines().skip_while(|line| !line.starts_with("Exit status")).skip(1);
    let numbers: Vec<u32> = statuses.map_while(|line| line.split_whitespace().next()?.parse().ok()).collect();
    assert_eq!(numbers, Error::REFUSALS.map(|refusal| refusal.number().unwrap()));
    for text in [&program, &place.good(&["--version"])] {
        assert!(text.lines().all(|line| line.chars().count() <= 110));
    }
}

#[test]
fn command_lines_that_make_no_sense() {
    let place = Place::worked();
    let none: [&str; 0] = [];
    place.bad(&none, 64, "name a command");
    place.bad(&["seal"], 64, "`seal` is no command");
    place.bad(&["limits"], 64, "--set is missing");
    place.bad(&["limits", "--set"], 64, "--set needs a value");
    place.bad(&["limits", "--set", SET, "--set", SET], 64, "twice");
    place.bad(&["limits", "--set", SET, "--out", "x"], 64, "--out is no option");
    place.bad(&["limits", "--set", SET, "x"], 64, "one argument too many");
    place.bad(&["limits", "--set", SET, "-x"], 64, "-x is no option");
    place.bad(&["add", "--set", SET, "sent"], 64, "two ciphertexts");
    place.bad(&["add", "--set", SET, "-", "-"], 64, "standard input (-) is given twice");
    place.bad(&["decrypt", "--set", SET_A, "--secret-key", "secret", "--counts=yes", "sent"], 64, "takes no value");
    place.bad(&["encrypt", "--set", SET_A, "--public-key", "public"], 64, "one of --counts, --message and --blank");
    let both = ["encrypt", "--set", SET_A, "--public-key", "public", "--counts", "1 1", "--blank"];
    place.bad(&both, 64, "one of --counts, --message and --blank");
    let word = ["encrypt", "--set", SET_A, "--public-key", "public", "--counts", "one two"];
    place.bad(&word, 65, "`one` is no number");
}

#[test]
fn files_that_cannot_be_read_or_written() {
    let place = Place::worked();
    place.bad(&["add", "--set", SET_A, "sent", "missing"], 74, "missing: No such file");
    place.bad(&["add", "--set", SET_A, "sent", "."], 74, ".: ");
    place.bad(&["add", "--set", SET_A, "sent", "sent", "--out", "no/where"], 74, "no/where: ");
    place.bad(&["add", "--set", SET_A, "sent", ""], 74, "No such file");
    let random = ["encrypt", "--set", SET_A, "--public-key", "public", "--counts", "1 1", "--random", "."];
    place.bad(&random, 74, ".: the source of random octets failed");
    place.bad(&["decrypt", "--set", SET_A, "--secret-key", "a\nb", "sent"], 74, "a?b: ");
}

#[test]
fn arguments_that_are_no_text() {
    let place = Place::worked();
    let odd = OsStr::from_bytes(b"\xFF\xFE=\x80").to_owned();
    let words = |words: &[&str]| words.iter().map(OsString::from).collect::<Vec<_>>();
    place.bad(std::slice::from_ref(&odd), 64, "is no command");
    place.bad(&[words(&["limits", "--set"]), vec![odd.clone()]].concat(), 11, "refusal 11");
    place.bad(&[words(&["add", "--set", SET_A, "sent"]), vec![odd.clone()]].concat(), 74, "No such file");
    let option = OsStr::from_bytes(b"--\xFF=1").to_owned();
    place.bad(&[words(&["limits"]), vec![option]].concat(), 64, "is no option");
    let counts = words(&["encrypt", "--set", SET_A, "--public-key", "public", "--counts"]);
    place.bad(&[counts, vec![odd.clone()]].concat(), 65, "is no number");
    // Such a name is as good as another.
    fs::copy(place.0.join("sent"), place.0.join(&odd)).unwrap();
    let same = [words(&["decrypt", "--counts", "--set", SET_A, "--secret-key", "secret"]), vec![odd]].concat();
    assert_eq!(place.good(&same), "2 3\n");
}

#[test]
fn a_broken_pipe_ends_it_quietly() {
    let place = Place::worked();
    place.write("element", &[1, 0, 2, 0]);
    for arguments in [
        vec!["--help"],
        vec!["limits", "--set", SET],
        vec!["add", "--set", SET_A, "sent", "sent"],
        vec!["multiply-add", "--set", SET_A, "element", "element", "element"],
        vec!["decrypt", "--set", SET_A, "--secret-key", "secret", "--counts", "sent"],
    ] {
        let (reader, writer) = std::io::pipe().unwrap();
        drop(reader);
        let output = Command::new(env!("CARGO_BIN_EXE_giophantus"))
            .args(&arguments)
            .current_dir(&place.0)
            .stdout(writer)
            .stderr(Stdio::piped())
            .output()
            .unwrap();
        assert_eq!(status(&output), 74, "{arguments:?}");
        assert!(output.stderr.is_empty(), "{}", String::from_utf8_lossy(&output.stderr));
    }
}

#[test]
fn endless_input_comes_to_an_end() {
    let place = Place::worked();
    place.bad(&["add", "--set", SET_A, "sent", "/dev/zero"], 6, "/dev/zero (24 octets expected, more found)");
    place.bad(&["convert", "--set", SET_A, "--kind", "small", "--to", "octets", "/dev/zero"], 65, "too long");
    let keygen = ["keygen", "--set", SET_A, "--random", "/dev/zero", "--secret-key", "s", "--public-key", "p"];
    place.bad(&keygen, 9, "/dev/zero: refusal 9");
    assert!(!place.has("s") && !place.has("p"));
}
