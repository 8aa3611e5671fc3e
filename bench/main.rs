// Times SHA-256 over pages of 4 KiB: the proved code, the same algorithm in plain Rust, and OpenSSL's code for three kinds of
// processor. Each turn is a process of its own, since OpenSSL reads OPENSSL_ia32cap once. All take turns, and the best counts.
mod plain;

use std::process::Command;
use std::time::{Duration, Instant};

const PAGES: usize = 32;
const TURNS: usize = 7;
const TURN: Duration = Duration::from_millis(300);

type Page = [u32; 1024];

// As the struct Measure of crates/sha256: eight words and a count.
#[repr(C)]
#[derive(Clone, Copy)]
struct Measure {
    hash: [u32; 8],
    blocks: u64,
}

unsafe extern "C" {
    fn sha256_new(measure: *mut Measure);
    fn sha256_page(measure: *mut Measure, page: *const u32, len: usize) -> bool;
    fn sha256_name(measure: *const Measure, name: *mut u32, len: usize) -> bool;
    fn SHA256_Init(context: *mut OpenSsl) -> i32;
    fn SHA256_Update(context: *mut OpenSsl, data: *const u8, len: usize) -> i32;
    fn SHA256_Final(digest: *mut u8, context: *mut OpenSsl) -> i32;
}

// Room for OpenSSL's SHA256_CTX, of 112 bytes.
#[repr(C, align(16))]
struct OpenSsl([u8; 256]);

#[derive(Clone, Copy)]
enum Code {
    Proved,
    Plain,
    PlainWords,
    OpenSsl,
}

struct Contender {
    label: &'static str,
    code: Code,
    // what OPENSSL_ia32cap masks: SSSE3, XOP and AVX in the first word; BMI, AVX2 and SHA in the second
    mask: &'static str,
    needs: &'static str,
}

const CONTENDERS: [Contender; 6] = [
    Contender { label: "proved", code: Code::Proved, mask: "", needs: "" },
    Contender { label: "plain Rust, the same", code: Code::Plain, mask: "", needs: "" },
    Contender { label: "plain Rust, word by word", code: Code::PlainWords, mask: "", needs: "" },
    Contender { label: "OpenSSL, plain x86-64", code: Code::OpenSsl, mask: "~0x1000020000000800:~0x20000128", needs: "" },
    Contender { label: "OpenSSL, AVX2", code: Code::OpenSsl, mask: ":~0x20000000", needs: "avx2" },
    Contender { label: "OpenSSL, SHA instructions", code: Code::OpenSsl, mask: "", needs: "sha_ni" },
];

fn pages() -> Vec<Page> {
    let mut x = 1u32;
    let mut word = || {
        x = x.wrapping_mul(1664525).wrapping_add(1013904223);
        x
    };
    (0..PAGES).map(|_| std::array::from_fn(|_| word())).collect()
}

fn name(code: Code, pages: &[Page]) -> [u32; 8] {
    match code {
        Code::Proved => {
            let mut measure = Measure { hash: [0; 8], blocks: 0 };
            let mut name = [0; 8];
            unsafe {
                sha256_new(&mut measure);
                for page in pages {
                    assert!(sha256_page(&mut measure, page.as_ptr(), page.len()));
                }
                assert!(sha256_name(&measure, name.as_mut_ptr(), name.len()));
            }
            name
        }
        Code::Plain => plain::name(plain::compress_vectors, pages),
        Code::PlainWords => plain::name(plain::compress_words, pages),
        Code::OpenSsl => {
            let mut context = OpenSsl([0; 256]);
            let mut digest = [0; 32];
            unsafe {
                SHA256_Init(&mut context);
                for page in pages {
                    SHA256_Update(&mut context, page.as_ptr().cast(), size_of::<Page>());
                }
                SHA256_Final(digest.as_mut_ptr(), &mut context);
            }
            std::array::from_fn(|i| u32::from_le_bytes(digest[4 * i..4 * i + 4].try_into().unwrap()))
        }
    }
}

// One turn: the best pass over the pages in it, in MB in a second.
fn turn(code: Code) {
    let pages = pages();
    let expected = name(Code::OpenSsl, &pages);
    let begun = Instant::now();
    let mut best = Duration::MAX;
    while begun.elapsed() < TURN {
        let pass = Instant::now();
        let found = name(code, std::hint::black_box(&pages));
        best = best.min(pass.elapsed());
        assert!(found == expected, "another digest than OpenSSL's");
    }
    println!("{}", (PAGES * size_of::<Page>()) as f64 / best.as_secs_f64() / 1e6);
}

fn timed(place: usize) -> f64 {
    let mut process = Command::new(std::env::current_exe().expect("the path of this program"));
    process.arg(place.to_string()).env_remove("OPENSSL_ia32cap");
    if !CONTENDERS[place].mask.is_empty() {
        process.env("OPENSSL_ia32cap", CONTENDERS[place].mask);
    }
    let out = process.output().expect("a turn's process");
    assert!(out.status.success(), "{}: {}", CONTENDERS[place].label, String::from_utf8_lossy(&out.stderr));
    String::from_utf8_lossy(&out.stdout).trim().parse().expect("a turn's figure")
}

fn main() {
    if let Some(place) = std::env::args().nth(1) {
        return turn(CONTENDERS[place.parse::<usize>().expect("a contender's number")].code);
    }
    let cpu = std::fs::read_to_string("/proc/cpuinfo").unwrap_or_default();
    let field = |key: &str| cpu.lines().find(|l| l.starts_with(key)).and_then(|l| l.split_once(':')).map_or("", |f| f.1.trim());
    let flags = field("flags");
    let has = |c: &Contender| c.needs.is_empty() || flags.split(' ').any(|f| f == c.needs);
    println!("processor: {}; pages of 4 KiB, best of {TURNS}", field("model name"));
    let mut best = [0f64; CONTENDERS.len()];
    for _ in 0..TURNS {
        for (place, _) in CONTENDERS.iter().enumerate().filter(|(_, c)| has(c)) {
            best[place] = best[place].max(timed(place));
        }
    }
    println!("{:<28}{:>8}{:>12}", "", "MB/s", "proved / it");
    for (c, mbs) in CONTENDERS.iter().zip(best) {
        if has(c) {
            println!("{:<28}{:>8.0}{:>12.2}", c.label, mbs, best[0] / mbs);
        } else {
            println!("{:<28}this processor has no {}", c.label, c.needs);
        }
    }
}
