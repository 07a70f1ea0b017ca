//! `is_utf8` and the core's `from_utf8`, side by side: a line for each text, its name and two times in nanoseconds, parted by tabs.
use std::hint::black_box;
use std::time::Instant;

unsafe extern "C" {
    fn text_is_utf8(bytes: *const u8, length: usize) -> u32;
    static text_padding: u8;
}

// What stands before our code in memory, to move it on.
std::arch::global_asm!(".pushsection .text", "text_padding:", concat!(".skip ", env!("PAD")), ".popsection");

fn ours(text: &[u8]) -> bool {
    // The slice lives for the call, which only reads it.
    unsafe { text_is_utf8(text.as_ptr(), text.len()) != 0 }
}

fn core(text: &[u8]) -> bool {
    std::str::from_utf8(text).is_ok()
}

/// The unit over and over, as many whole characters as fit, then `a` up to the length.
fn text(unit: &str, length: usize) -> Vec<u8> {
    let mut text = String::new();
    for c in unit.chars().cycle() {
        if text.len() + c.len_utf8() > length {
            break;
        }
        text.push(c);
    }
    while text.len() < length {
        text.push('a');
    }
    text.into_bytes()
}

/// The time of a call, of so many in a batch.
fn batch(test: fn(&[u8]) -> bool, text: &[u8], calls: u32) -> f64 {
    let start = Instant::now();
    for _ in 0..calls {
        black_box(test(black_box(text)));
    }
    start.elapsed().as_nanos() as f64 / f64::from(calls)
}

fn main() {
    // Our code stands behind it.
    black_box(&raw const text_padding);
    let rows = [
        ("ASCII", "Lost umbrellas and gloves "),
        ("German", "Größenmaß für Bürsten, Züge "),
        ("French", "Objets trouvés à la gare, un sac déchiré "),
        ("Russian", "потерянные вещи на станции "),
        ("Japanese", "日本語の忘れ物センター"),
        ("emoji", "😀😎🧤☂"),
        ("mixed", "日本 station Größe 😀 ab. éà "),
    ];
    for (name, unit) in rows {
        for length in [12, 32, 255, 1023] {
            let text = text(unit, length);
            assert!(ours(&text) && core(&text));
            let calls = 200_000 / (length as u32 + 20) + 10;
            let (mut a, mut b) = (f64::MAX, f64::MAX);
            for _ in 0..200 {
                a = a.min(batch(ours, &text, calls));
                b = b.min(batch(core, &text, calls));
            }
            println!("{name}, {length} bytes\t{a}\t{b}");
        }
    }
}
