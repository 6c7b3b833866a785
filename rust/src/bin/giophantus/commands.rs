//! The commands.

use std::ffi::OsStr;
use std::fmt::Display;
use std::fs::File;
use std::io::{self, Read, Write};
use std::path::Path;

use giophantus::{Ciphertext, Element, Error, Message, Parameters, PublicKey, RandomUse, SecretKey};

use crate::failure::Failure;
use crate::files;
use crate::options::{Options, Takes};

type Done = Result<(), Failure>;

const STANDARD: &str = "-";
const SYSTEM_RANDOM: &str = "/dev/urandom";

pub const KEYGEN: Takes =
    Takes { values: &["--set", "--secret-key", "--public-key", "--random"], flags: &["--force"], files: 0 };

pub fn keygen(options: &Options) -> Done {
    let set = set(options)?;
    let secret_path = options.needed_file("--secret-key")?;
    let public_path = options.needed_file("--public-key")?;
    if secret_path == public_path {
        return Err(Failure::usage("--secret-key and --public-key are one file; name two"));
    }
    for path in [secret_path, public_path] {
        if !files::is_standard(path) && !options.flag("--force") && path.symlink_metadata().is_ok() {
            return Err(Failure::exists(path));
        }
    }
    let (random, name) = random(options)?;
    let keys = set.keygen_from(random).map_err(|error| Failure::refused(name, error))?;
    files::write_secret(secret_path, keys.secret_key.as_ref())?;
    files::write_octets(public_path, keys.public_key.as_ref())?;
    let elements = counted(keys.used.dropped_elements, "element");
    say_used(options, &set, keys.used, &format!(" and {elements} of {}", counted(set.small_len(), "octet")));
    Ok(())
}

pub const ENCRYPT: Takes = Takes {
    values: &["--set", "--public-key", "--counts", "--message", "--random", "--out"],
    flags: &["--blank"],
    files: 0,
};

pub fn encrypt(options: &Options) -> Done {
    let set = set(options)?;
    let public_path = options.needed_file("--public-key")?;
    let message_path = options.file("--message");
    let inputs: Vec<&Path> =
        [Some(public_path), message_path, options.file("--random")].into_iter().flatten().collect();
    files::one_standard(&inputs)?;

    let public_key = given(&set, public_path, set.public_key_len())?;
    let message = match (options.value("--counts"), message_path, options.flag("--blank")) {
        (Some(list), None, false) => counts(&set, list)?,
        (None, Some(path), false) => given(&set, path, set.message_len())?,
        (None, None, true) => blank(&set),
        _ => return Err(Failure::usage("give one of --counts, --message and --blank; see --help")),
    };
    let (public_key, message) = both(public_key, message)?;
    let (random, name) = random(options)?;
    let encrypted = PublicKey::encrypt_from(&public_key, &message, random);
    let encrypted = encrypted.map_err(|error| Failure::refused(name, error))?;
    files::write_octets(out(options), encrypted.ciphertext.as_ref())?;
    say_used(options, &set, encrypted.used, "");
    Ok(())
}

pub const ADD: Takes = Takes { values: &["--set", "--out"], flags: &[], files: usize::MAX };

pub fn add(options: &Options) -> Done {
    let set = set(options)?;
    let paths: Vec<&Path> = options.files.iter().map(|path| path.as_path()).collect();
    if paths.len() < 2 {
        return Err(Failure::usage("name two ciphertexts or more; see --help"));
    }
    files::one_standard(&paths)?;
    // All are judged before a refusal is told, so that the first in the order of refusals is.
    let mut ciphertexts = Vec::new();
    let mut refused: Option<Refused> = None;
    for path in paths {
        match given::<Ciphertext>(&set, path, set.ciphertext_len())? {
            Ok(ciphertext) => ciphertexts.push(ciphertext),
            Err(another) => refused = Some(refused.map_or(another.clone(), |one| one.first(another))),
        }
    }
    if let Some(refused) = refused {
        return Err(refused.into());
    }
    let sum = Ciphertext::try_sum(&ciphertexts).map_err(|error| Failure::refused("the sum", error))?;
    match sum {
        Some(sum) => files::write_octets(out(options), sum.as_ref()),
        None => Err(Failure::usage("name two ciphertexts or more; see --help")),
    }
}

pub const DECRYPT: Takes = Takes { values: &["--set", "--secret-key", "--out"], flags: &["--counts"], files: 1 };

pub fn decrypt(options: &Options) -> Done {
    let set = set(options)?;
    let secret_path = options.needed_file("--secret-key")?;
    let path = input(options);
    files::one_standard(&[secret_path, path])?;
    let secret_key = given::<SecretKey>(&set, secret_path, set.secret_key_len())?;
    let ciphertext = given::<Ciphertext>(&set, path, set.ciphertext_len())?;
    let (secret_key, ciphertext) = both(secret_key, ciphertext)?;
    let message = secret_key.decrypt(&ciphertext).map_err(|error| with_secret_key(secret_path, path, error))?;
    if !options.flag("--counts") {
        return files::write_octets(out(options), message.as_ref());
    }
    let text = if message.is_blank() { "blank\n".to_owned() } else { line(&message.to_counts()) };
    files::write(out(options), text.as_bytes())
}

pub const IS_ZERO: Takes = Takes { values: &["--set", "--secret-key", "--public-key"], flags: &[], files: 0 };

pub fn is_zero(options: &Options) -> Done {
    let set = set(options)?;
    let secret_path = options.needed_file("--secret-key")?;
    let public_path = options.needed_file("--public-key")?;
    files::one_standard(&[secret_path, public_path])?;
    let secret_key = given::<SecretKey>(&set, secret_path, set.secret_key_len())?;
    let public_key = given::<PublicKey>(&set, public_path, set.public_key_len())?;
    let (secret_key, public_key) = both(secret_key, public_key)?;
    let zero = secret_key.is_zero_of(&public_key).map_err(|error| with_secret_key(secret_path, public_path, error))?;
    files::print(if zero { "yes\n" } else { "no\n" })
}

pub const LIMITS: Takes = Takes { values: &["--set"], flags: &[], files: 0 };

pub fn limits(options: &Options) -> Done {
    let set = set(options)?;
    let counts = match set.counts_len() {
        0 => "none: a set for blank fields".to_owned(),
        count => format!("{count} in a message, each 0 to {}", set.l() - 1),
    };
    let for_each_group = format!("random octets, and {} for each group", set.coefficient_len());
    let for_each_element = format!("and {} for each element", set.small_len());
    let rows: [(&str, &dyn Display); 13] = [
        ("set", &set),
        ("edition", &set.edition()),
        ("bound", &set.bound()),
        ("headroom", &set.headroom()),
        ("counts", &counts),
        ("secret key octets", &set.secret_key_len()),
        ("public key octets", &set.public_key_len()),
        ("message octets", &set.message_len()),
        ("ciphertext octets", &set.ciphertext_len()),
        ("ring element octets", &set.element_len()),
        ("small element octets", &set.small_len()),
        ("keygen uses", &format!("{} {for_each_group} {for_each_element} dropped", set.keygen_fixed_octets())),
        ("encrypt uses", &format!("{} {for_each_group} dropped", set.encryption_fixed_octets())),
    ];
    files::print(&rows.iter().map(|(name, value)| format!("{name:<20} {value}\n")).collect::<String>())
}

pub const MULTIPLY_ADD: Takes = Takes { values: &["--set", "--out"], flags: &[], files: 3 };

pub fn multiply_add(options: &Options) -> Done {
    let set = set(options)?;
    let paths: Vec<&Path> = options.files.iter().map(|path| path.as_path()).collect();
    let [a, b, c] = paths[..] else {
        return Err(Failure::usage("name three ring elements: A, B and C; see --help"));
    };
    files::one_standard(&paths)?;
    let element = |path| given::<Element>(&set, path, set.element_len());
    let ((a, b), mut c) = both(both(element(a)?, element(b)?), element(c)?)?;
    c.multiply_add(&a, &b).map_err(|error| Failure::refused("A x B + C", error))?;
    files::write_octets(out(options), &c.to_octets())
}

pub const CONVERT: Takes = Takes { values: &["--set", "--kind", "--to", "--out"], flags: &[], files: 1 };

pub fn convert(options: &Options) -> Done {
    let set = set(options)?;
    let kind = options.needed("--kind")?;
    let kind = KINDS.iter().find(|one| kind == one.name).ok_or_else(|| {
        Failure::usage("--kind is element, small, secret-key, public-key, ciphertext or message; see --help")
    })?;
    let path = input(options);
    let refused = |error| Failure::refused(path.display(), error);
    match options.needed("--to")?.to_str() {
        Some("words") => {
            let octets = files::read(path, (kind.len)(&set))?;
            let words = (kind.to_words)(&set, &octets).map_err(refused)?;
            let lines: String = words.chunks(set.n() as usize).map(line).collect();
            files::write(out(options), lines.as_bytes())
        }
        Some("octets") => {
            let words = numbers(&files::read_text(path)?).map_err(|word| {
                Failure::data(format!("{}: `{word}` is no number; give decimal numbers", path.display()))
            })?;
            files::write_octets(out(options), &(kind.to_octets)(&set, &words).map_err(refused)?)
        }
        _ => Err(Failure::usage("--to is words or octets; see --help")),
    }
}

/// What can be converted: its length in octets, and both ways.
struct Kind {
    name: &'static str,
    len: fn(&Parameters) -> usize,
    to_words: fn(&Parameters, &[u8]) -> Result<Vec<u32>, Error>,
    to_octets: fn(&Parameters, &[u32]) -> Result<Vec<u8>, Error>,
}

const KINDS: [Kind; 6] = [
    Kind {
        name: "element",
        len: Parameters::element_len,
        to_words: Parameters::element_from_octets,
        to_octets: Parameters::element_to_octets,
    },
    Kind {
        name: "small",
        len: Parameters::small_len,
        to_words: Parameters::small_from_octets,
        to_octets: Parameters::small_to_octets,
    },
    Kind {
        name: "secret-key",
        len: Parameters::secret_key_len,
        to_words: |set, octets| Ok(SecretKey::try_from((set, octets))?.to_words()),
        to_octets: |set, words| Ok(SecretKey::from_words(set, words)?.into()),
    },
    Kind {
        name: "public-key",
        len: Parameters::public_key_len,
        to_words: |set, octets| Ok(PublicKey::try_from((set, octets))?.to_words()),
        to_octets: |set, words| Ok(PublicKey::from_words(set, words)?.into()),
    },
    Kind {
        name: "ciphertext",
        len: Parameters::ciphertext_len,
        to_words: |set, octets| Ok(Ciphertext::try_from((set, octets))?.to_words()),
        to_octets: |set, words| Ok(Ciphertext::from_words(set, words)?.into()),
    },
    Kind {
        name: "message",
        len: Parameters::message_len,
        to_words: |set, octets| Ok(Message::try_from((set, octets))?.to_counts()),
        to_octets: |set, words| Ok(Message::from_counts(set, words)?.into()),
    },
];

/// The set that `--set` gives.
fn set(options: &Options) -> Result<Parameters, Failure> {
    let given = options.needed("--set")?;
    let set = given.to_str().ok_or(Error::Line).and_then(str::parse);
    set.map_err(|error| Failure::refused(format_args!("--set \"{}\"", given.to_string_lossy()), error))
}

/// Something that was refused, and why.
#[derive(Clone)]
struct Refused {
    what: String,
    error: Error,
}

impl Refused {
    /// The one that is first in the order of refusals, as one call of the library would refuse both.
    fn first(self, other: Refused) -> Refused {
        if other.error.precedes(self.error) {
            other
        } else {
            self
        }
    }
}

impl From<Refused> for Failure {
    fn from(refused: Refused) -> Failure {
        Failure::refused(refused.what, refused.error)
    }
}

/// What a file holds, or why it is refused. A file that can't be read is a failure at once.
fn given<T>(set: &Parameters, path: &Path, expected: usize) -> Result<Result<T, Refused>, Failure>
where
    T: for<'a> TryFrom<(&'a Parameters, &'a [u8]), Error = Error>,
{
    let octets = files::read(path, expected)?;
    Ok(T::try_from((set, &octets)).map_err(|error| {
        let found = if octets.len() > expected { "more".to_owned() } else { octets.len().to_string() };
        let what = match error {
            Error::Length => format!("{} ({expected} octets expected, {found} found)", path.display()),
            _ => path.display().to_string(),
        };
        Refused { what, error }
    }))
}

/// The counts of `--counts`, or why they are refused.
fn counts(set: &Parameters, list: &OsStr) -> Result<Result<Message, Refused>, Failure> {
    let counts = numbers(&list.to_string_lossy()).map_err(|word| {
        Failure::data(format!("--counts: `{word}` is no number; give decimal numbers with spaces between"))
    })?;
    Ok(Message::from_counts(set, &counts).map_err(|error| {
        let what = match error {
            Error::Length => format!("--counts ({} expected, {} found)", set.counts_len(), counts.len()),
            _ => "--counts".to_owned(),
        };
        Refused { what, error }
    }))
}

/// The message of a blank field, which the set must be for.
fn blank(set: &Parameters) -> Result<Message, Refused> {
    Message::from_counts(set, &[])
        .map_err(|error| Refused { what: format!("--blank goes out under the set \"{}\"", set.blank()), error })
}

/// The refusal of a call with a secret key and the octets of another file: the key's file is named where it is the key
/// that is refused.
fn with_secret_key(secret_path: &Path, path: &Path, error: Error) -> Failure {
    let what = if error == Error::TopCoefficient { secret_path } else { path };
    Failure::refused(what.display(), error)
}

/// Both, or the refusal that is first in the order.
fn both<A, B>(a: Result<A, Refused>, b: Result<B, Refused>) -> Result<(A, B), Refused> {
    match (a, b) {
        (Ok(a), Ok(b)) => Ok((a, b)),
        (Err(a), Err(b)) => Err(a.first(b)),
        (Err(refused), Ok(_)) | (Ok(_), Err(refused)) => Err(refused),
    }
}

/// The source of random octets and its name.
fn random(options: &Options) -> Result<(Box<dyn Read>, String), Failure> {
    if let Some(path) = options.file("--random") {
        return Ok((files::open(path)?, path.display().to_string()));
    }
    let system = File::open(SYSTEM_RANDOM).map_err(|error| {
        Failure::io(format_args!("{SYSTEM_RANDOM} (give random octets with --random FILE)"), &error)
    })?;
    Ok((Box::new(system), SYSTEM_RANDOM.to_owned()))
}

/// Where random octets came from a file of the person's, says how many were used, and how many groups among them, and
/// what else, were dropped.
fn say_used(options: &Options, set: &Parameters, used: RandomUse, and: &str) {
    if options.value("--random").is_some() {
        let groups = counted(used.dropped_groups, "group");
        let each = counted(set.coefficient_len(), "octet");
        let _ =
            writeln!(io::stderr(), "giophantus: {} random octets used, {groups} of {each}{and} dropped", used.octets);
    }
}

/// A number of things, in the singular where it is 1.
fn counted(number: usize, thing: &str) -> String {
    let plural = if number == 1 { "" } else { "s" };
    format!("{number} {thing}{plural}")
}

/// Where the result goes.
fn out(options: &Options) -> &Path {
    options.file("--out").unwrap_or(Path::new(STANDARD))
}

/// The one input file.
fn input(options: &Options) -> &Path {
    options.files.first().map_or(Path::new(STANDARD), |path| path.as_path())
}

/// Decimal numbers with white space or commas between, or the first word that is none. One that is too large for a word
/// is held as the largest word, which no set accepts either.
fn numbers(text: &str) -> Result<Vec<u32>, String> {
    let words = text.split(|c: char| c.is_ascii_whitespace() || c == ',').filter(|word| !word.is_empty());
    words
        .map(|word| {
            if word.bytes().all(|octet| octet.is_ascii_digit()) {
                Ok(word.parse().unwrap_or(u32::MAX))
            } else {
                Err(word.chars().take(20).collect())
            }
        })
        .collect()
}

/// Numbers on one line.
fn line(numbers: &[u32]) -> String {
    let words: Vec<String> = numbers.iter().map(u32::to_string).collect();
    words.join(" ") + "\n"
}
